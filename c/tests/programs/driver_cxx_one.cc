/* The library that throws, and that has static and thread-local objects. */
#include "driver_cxx.h"
#include <cstdio>
#include <memory>
#include <mutex>

shape::~shape() { alive--; }
int circle::area() const { return 3; }
shape *make_shape(int kind) {
    if (kind > 1) throw std::out_of_range("kind " + std::to_string(kind));
    return kind ? static_cast<shape *>(new square(4)) : new circle;
}
void throw_failure(int number) {
    std::unique_ptr<shape> held(make_shape(0));
    if (number) throw failure("number " + std::to_string(number), next_number());
}
static struct first_library {
    first_library() { std::puts("one begins"); }
    ~first_library() { std::puts("one ends"); }
} last;
static std::mutex mutex;
static std::string ended;
std::string names_of_ended_threads() {
    std::lock_guard<std::mutex> lock(mutex);
    return ended;
}
struct of_thread {
    int number = 0;
    ~of_thread() {
        std::lock_guard<std::mutex> lock(mutex);
        ended += std::to_string(number) + " ";
    }
};
void use_thread_local(int number) {
#ifdef HAS_THREAD_LOCAL
    static thread_local of_thread it;
    it.number += number;
#else
    of_thread it;
    it.number = number;
#endif
}
