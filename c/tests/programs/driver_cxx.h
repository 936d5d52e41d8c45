/* Declares the functions and classes that the libraries and the program of driver_cxx.cc share. */
#include <atomic>
#include <stdexcept>
#include <string>

/* A class without a key function: each object has its vtable and its typeinfo. */
struct failure : std::runtime_error {
    int number;
    failure(const std::string &text, int number) : std::runtime_error(text), number(number) {}
};
struct shape {
    virtual ~shape();
    virtual int area() const = 0;
    inline static std::atomic<int> alive{0};
    shape() { alive++; }
};
struct square : shape {
    int side;
    explicit square(int side) : side(side) {}
    int area() const override { return side * side; }
};
struct circle : shape {
    int area() const override;
};
/* An inline function's static object, which all objects share. */
inline int next_number() {
    static std::atomic<int> last((shape::alive += 0, 10));
    return ++last;
}
shape *make_shape(int kind);
void throw_failure(int number);
int visit(const shape &, int (*)(const shape &));
std::string names_of_ended_threads();
void use_thread_local(int number);
