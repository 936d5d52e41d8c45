// A library in C++ with objects that are constructed before the program starts and destroyed after it ends.
#include "say.h"

namespace {

class Counter {
public:
    explicit Counter(const char *name) : name(name) {
        count++;
        say(" +");
        say(name);
    }
    ~Counter() {
        count--;
        say(" -");
        say(name);
    }
    static int count;

private:
    const char *name;
};

int Counter::count;
Counter one("one"), two("two");

} // namespace

extern "C" int objects() {
    return Counter::count;
}
