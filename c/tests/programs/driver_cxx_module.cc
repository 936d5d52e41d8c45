/* A module, which a program opens. */
#include "driver_cxx.h"
#include <typeinfo>

extern "C" shape *make() { return new square(next_number()); }
extern "C" void fail() { throw failure("a module", next_number()); }
