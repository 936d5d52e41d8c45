/* The library through which exceptions pass. */
#include "driver_cxx.h"
#include <cstdio>

static struct second_library {
    second_library() { std::puts("two begins"); }
    ~second_library() { std::puts("two ends"); }
} last;
int visit(const shape &it, int (*call)(const shape &)) {
    struct unwound {
        ~unwound() { std::puts("unwound"); }
    } unwound;
    try {
        return call(it);
    } catch (const failure &found) {
        std::printf("two: %s, %d\n", found.what(), found.number);
        std::throw_with_nested(std::logic_error("within two"));
    }
}
