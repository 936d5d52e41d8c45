/* The variable by whose address an object of C++ names itself when it registers a destructor. Each
 * library and each program has its own. */
extern void *const __dso_handle __attribute__((visibility("hidden")));
void *const __dso_handle = (void *)&__dso_handle;
