/* Cancellation of threads. A thread isn't cancelled within a call that opens, changes or closes a
 * file. Otherwise the file would stay locked. A change that was cut off couldn't be continued
 * either: the current root is written last, and no caller would know whether the medium has this
 * root. */
#define _GNU_SOURCE
#include "rlibreg_registry.h"

#include <pthread.h>

int rlibreg_begin_call(void) {
    int before;
    pthread_setcancelstate(PTHREAD_CANCEL_DISABLE, &before);
    return before;
}

void rlibreg_end_call(int before) {
    pthread_setcancelstate(before, &before);
}
