/* The library of the base class: a static object, and a static variable of a function. */
#include "driver_shapes.h"

int noted;

namespace {
struct Object {
    Object() { noted = 1; }
    ~Object() { printf("base ends\n"); }
} object;
}

Shape::~Shape() { printf("shape deleted\n"); }
Counter::Counter() : count(40) { printf("counter made\n"); }
Counter::~Counter() { printf("counter ends at %d\n", count); }

Counter &counter() {
    static Counter it;
    return it;
}
