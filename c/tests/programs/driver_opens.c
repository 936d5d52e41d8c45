/* A program that opens the libraries that it is bound to, looks up names in them, and prints the
 * results. */
#define _GNU_SOURCE
#include <dlfcn.h>
#include <link.h>
#include <pthread.h>
#include <stdio.h>
#include <stdlib.h>
#include <string.h>
#include <sys/wait.h>
#include <unistd.h>

static long wrong;
typedef int call(void);

static void show(const char *what, const void *found) {
    const char *error = dlerror();
    printf("%s: %s%s%s\n", what, found ? "found" : "not found", error ? ", " : "", error ? error : "");
}
static int result(void *handle, const char *name) {
    call *it = (call *)dlsym(handle, name);
    return it ? it() : -1;
}
int shared_name(void) { return 1; }

static void open_names(void) {
    static const char *const names[] = { "module.so", "./module.so", "/a/b/libbelow.so", "below", "",
                                         "folder/", "libc.so.6", "./program", "module.so/" };
    for (size_t at = 0; at < sizeof names / sizeof *names; at++)
        show(names[at], dlopen(names[at], RTLD_NOW));
}

static void look_up(void) {
    void *module = dlopen("module.so", RTLD_NOW), *below = dlopen("libbelow.so", RTLD_LOCAL);
    void *program = dlopen(NULL, RTLD_LAZY);
    printf("%d %d %d\n", result(module, "module_call"), result(module, "below"),
           *(int *)dlsym(module, "module_value"));
    printf("%d %d\n", result(module, "module_weak"), result(module, "module_protected"));
    printf("%d %d %d %d\n", result(program, "shared_name"), result(module, "shared_name"),
           result(below, "shared_name"), result(RTLD_NEXT, "shared_name"));
    void *next = ((void *(*)(void))dlsym(module, "module_next"))();
    printf("%d %d\n", next ? ((call *)next)() : -1, result(RTLD_DEFAULT, "module_found"));
    show("hidden", dlsym(module, "module_hidden"));
    show("not below", dlsym(below, "module_call"));
    wrong += dlsym(module, "module_absolute") != (void *)0x1234;
    show("nowhere", dlsym(RTLD_DEFAULT, "nowhere"));
    show("no handle", dlsym((void *)8, "below"));
    show("half a handle", dlsym((char *)module + 8, "below"));
    show("no object's", dlsym((char *)module + 4000, "below"));
    printf("%d %d %d\n", dlclose(module), dlclose(module), dlclose((void *)8));
    show("closed", dlsym(module, "module_call"));
    wrong += dlopen("module.so", RTLD_NOW | RTLD_NOLOAD) != module || dlerror();
}

static int count(struct dl_phdr_info *info, size_t size, void *counts) {
    const Elf64_Phdr *it = info->dlpi_phdr;
    wrong += size < sizeof *info;
    for (int at = 0; at < info->dlpi_phnum; at++)
        if (it[at].p_type == PT_LOAD && (uintptr_t)count - info->dlpi_addr - it[at].p_vaddr < it[at].p_memsz)
            ((int *)counts)[0]++;
    ((int *)counts)[1] += strcmp(info->dlpi_name, "module.so") == 0;
    return ++((int *)counts)[2] == 100;
}

static void describe(void) {
    Dl_info info;
    struct link_map *map;
    int counts[3] = { 0 };
    void *module = dlopen("module.so", RTLD_NOW);
    char *call = dlsym(module, "module_call");
    wrong += !dladdr(call + 1, &info) || info.dli_saddr != call;
    wrong += !dladdr(call, &info) || info.dli_saddr != call;
    printf("%s %s\n", info.dli_fname, info.dli_sname);
    wrong += !dladdr((void *)count, &info) || info.dli_sname || !strstr(info.dli_fname, "opens");
    wrong += dladdr(&info, &info) || dladdr((void *)16, &info);
    wrong += dl_iterate_phdr(count, counts) != 0;
    printf("%d %d %s\n", counts[0], counts[1], counts[2] > 2 ? "objects" : "too few");
    wrong += dlinfo(module, RTLD_DI_LINKMAP, &map) || strcmp(map->l_name, "module.so") != 0;
    while (map->l_prev) map = map->l_prev;
    int others = 0;
    while ((map = map->l_next)) others++;
    wrong += others != counts[2] - 1;
}

/* The threads end after the last fork. In musl, a fork may wait forever for a thread that ends, if that
 * thread had an error of dlopen. */
static int has_forked;
static void *open_often(void *given) {
    for (int at = 0; at < 2000 || !__atomic_load_n(&has_forked, __ATOMIC_ACQUIRE); at++) {
        void *module = dlopen("x/module.so", RTLD_NOW);
        if (result(module, "module_call") != 48 || dlopen("none", RTLD_NOW) || !dlerror())
            __atomic_add_fetch(&wrong, 1, __ATOMIC_RELAXED);
    }
    return given;
}
static void open_at_once(void) {
    int status;
    pthread_t threads[2];
    for (int at = 0; at < 2; at++)
        if (pthread_create(&threads[at], NULL, open_often, NULL)) abort();
    for (int at = 0; at < 20; at++) {
        pid_t child = fork();
        if (!child) _exit(result(dlopen("module.so", RTLD_NOW), "module_call") != 48);
        wrong += child < 0 || waitpid(child, &status, 0) != child || status != 0;
    }
    __atomic_store_n(&has_forked, 1, __ATOMIC_RELEASE);
    for (int at = 0; at < 2; at++) pthread_join(threads[at], NULL);
}

int main(void) {
    open_at_once();
    open_names();
    look_up();
    describe();
    printf("wrong: %ld\n", wrong);
    return wrong != 0;
}
