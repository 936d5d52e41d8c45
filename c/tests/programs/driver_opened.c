/* A module, to which nothing refers. Its constructor opens libraries. */
#define _GNU_SOURCE
#include <dlfcn.h>
#include <string.h>

int below(void);
int module_value = 41;
int shared_name(void) { return 2; }
__attribute__((weak)) int module_weak(void) { return 3; }
__attribute__((visibility("hidden"))) int module_hidden(void) { return 4; }
__attribute__((visibility("protected"))) int module_protected(void) { return 5; }
__asm__(".globl module_absolute\nmodule_absolute = 0x1234");
static int found;

int module_call(void) { return module_value + below(); }
int module_found(void) { return found + (module_hidden() == 4 ? 0 : 100); }
void *module_next(void) { return dlsym(RTLD_NEXT, "shared_name"); }

__attribute__((constructor)) static void open_others(void) {
    void *self = dlopen("./folder/module.so", RTLD_NOW), *other = dlopen("libbelow.so", RTLD_LAZY);
    int (*call)(void) = (int (*)(void))dlsym(other, "below");
    found = self && other && call && call() == 7 && dlsym(self, "module_call") == (void *)module_call;
    if (!dlopen("none.so", RTLD_NOW) && dlerror() && !dlerror()) found += 10;
}
