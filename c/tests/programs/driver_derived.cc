/* A class derived from a class of another library, and a static object. */
#include "driver_shapes.h"

namespace {
struct Object {
    Object() { noted = noted * 10 + 2; }
    ~Object() { printf("derived ends\n"); }
} object;

struct Square : Shape {
    int side;
    explicit Square(int side) : side(side) { counter().count++; }
    ~Square() override { printf("square %d deleted\n", side); }
    int area() const override { return side * side; }
};
}

Shape *square(int side) { return new Square(side); }
