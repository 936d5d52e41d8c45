/* Another library, which uses the data of the first and of the program. */
#include "driver_threads.h"

int add_to_shared(int number) {
    *shared.other = 9;
    return shared.number += number;
}
