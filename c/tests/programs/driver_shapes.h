/* The classes that two libraries share. */
extern "C" int printf(const char *, ...);

struct Shape {
    virtual ~Shape();
    virtual int area() const = 0;
};

/* Counts with a static object of a function. */
struct Counter {
    Counter();
    ~Counter();
    int count;
};
Counter &counter();

Shape *square(int side);

/* The numbers that constructors of static objects have noted. These constructors run before printf
 * can be used. */
extern int noted;
