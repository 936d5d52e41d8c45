/* The functions of C++'s library that g++ uses for code without exceptions: memory, guards of local
 * statics, and the functions that end the process when a pure or deleted virtual function is
 * called. rlibreg-g++ links those that a program needs. */
typedef decltype(sizeof 0) size;
extern "C" {
void *malloc(size);
void *aligned_alloc(size, size);
void free(void *);
[[noreturn]] void abort();
int sched_yield();
}
namespace std {
enum class align_val_t : size {};
struct nothrow_t {
    explicit nothrow_t() = default;
};
extern const nothrow_t nothrow;
const nothrow_t nothrow{};
} // namespace std
using std::align_val_t;
using std::nothrow_t;

/* Returns `memory`, or ends the process if it is null. */
static void *or_abort(void *memory) {
    if (!memory) abort();
    return memory;
}
/* Allocates at least one byte, so that each block has an address of its own. The size isn't rounded
 * up to a multiple of `unit`: the sum could wrap, and musl doesn't require it. Returns null if size
 * and unit exceed the address space. */
static void *block(size bytes) { return malloc(bytes ? bytes : 1); }
static void *block(size bytes, align_val_t unit) {
    return aligned_alloc(size(unit), bytes ? bytes : 1);
}

void *operator new(size bytes) { return or_abort(block(bytes)); }
void *operator new[](size bytes) { return or_abort(block(bytes)); }
void *operator new(size bytes, align_val_t unit) { return or_abort(block(bytes, unit)); }
void *operator new[](size bytes, align_val_t unit) { return or_abort(block(bytes, unit)); }

void *operator new(size bytes, const nothrow_t &) noexcept { return block(bytes); }
void *operator new[](size bytes, const nothrow_t &) noexcept { return block(bytes); }
void *operator new(size bytes, align_val_t unit, const nothrow_t &) noexcept {
    return block(bytes, unit);
}
void *operator new[](size bytes, align_val_t unit, const nothrow_t &) noexcept {
    return block(bytes, unit);
}

void operator delete(void *memory) noexcept { free(memory); }
void operator delete[](void *memory) noexcept { free(memory); }
void operator delete(void *memory, size) noexcept { free(memory); }
void operator delete[](void *memory, size) noexcept { free(memory); }
void operator delete(void *memory, align_val_t) noexcept { free(memory); }
void operator delete[](void *memory, align_val_t) noexcept { free(memory); }
void operator delete(void *memory, size, align_val_t) noexcept { free(memory); }
void operator delete[](void *memory, size, align_val_t) noexcept { free(memory); }
void operator delete(void *memory, const nothrow_t &) noexcept { free(memory); }
void operator delete[](void *memory, const nothrow_t &) noexcept { free(memory); }
void operator delete(void *memory, align_val_t, const nothrow_t &) noexcept { free(memory); }
void operator delete[](void *memory, align_val_t, const nothrow_t &) noexcept { free(memory); }

extern "C" {
/* A guard's first byte states that the object has been made, and its second byte states that a
 * thread is making it. */
int __cxa_guard_acquire(char *guard) {
    while (!__atomic_load_n(guard, __ATOMIC_ACQUIRE)) {
        if (!__atomic_exchange_n(guard + 1, 1, __ATOMIC_ACQ_REL)) return 1;
        sched_yield();
    }
    return 0;
}
void __cxa_guard_release(char *guard) { __atomic_store_n(guard, 1, __ATOMIC_RELEASE); }
void __cxa_guard_abort(char *guard) { __atomic_store_n(guard + 1, 0, __ATOMIC_RELEASE); }
void __cxa_pure_virtual() { abort(); }
void __cxa_deleted_virtual() { abort(); }
}
