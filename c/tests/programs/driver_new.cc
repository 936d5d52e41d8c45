/* Operators new and delete. g++ declares some of them itself; without C++'s headers, this file
 * declares the others. With an argument, the program requests the impossible block of that number.
 * Without an argument, it requests possible blocks. */
typedef decltype(sizeof 0) size;
namespace std {
enum class align_val_t : size {};
struct nothrow_t {};
extern const nothrow_t nothrow;
} // namespace std
using std::align_val_t;
using std::nothrow_t;
void *operator new(size, const nothrow_t &) noexcept;
void *operator new[](size, const nothrow_t &) noexcept;
void *operator new(size, align_val_t, const nothrow_t &) noexcept;
void *operator new[](size, align_val_t, const nothrow_t &) noexcept;
void operator delete(void *, const nothrow_t &) noexcept;
void operator delete[](void *, const nothrow_t &) noexcept;
void operator delete(void *, align_val_t, const nothrow_t &) noexcept;
void operator delete[](void *, align_val_t, const nothrow_t &) noexcept;
extern "C" {
int printf(const char *, ...);
int atoi(const char *);
void *memset(void *, int, size);
}

struct alignas(64) Line {
    char bytes[64];
};
struct alignas(16384) Pages {
    char bytes[16384];
};
static const volatile size MOST = ~size(0); /* else g++ warns of such sizes */
static const align_val_t LINE{64}, PAGES{16384};

/* Blocks that exceed the address space, among them sizes that wrap if they are rounded up. */
static void *impossible(int number) {
    volatile size many = MOST / 32;
    switch (number) {
        case 0: return operator new(MOST);
        case 1: return operator new[](MOST - 7);
        case 2: return operator new(MOST, LINE);
        case 3: return operator new[](MOST - 62, LINE);
        case 4: return operator new[](MOST - 63, LINE);
        case 5: return operator new[](MOST - 16000, PAGES);
        case 6: return operator new(MOST - 16383, PAGES);
        case 7: return new Line[many];
        case 8: return new int[many * 16];
        default: return new Pages[many];
    }
}

static int wrong(const char *what, void *block, size bytes, size unit) {
    bool is_wrong = !block || (size)block % unit;
    if (is_wrong) printf("%s: %p\n", what, block);
    else memset(block, 1, bytes);
    return is_wrong;
}

static int blocks_of_nothing() {
    int found = 0;
    void *blocks[16];
    for (int at = 0; at < 16; at++) {
        blocks[at] = at % 2 ? operator new[](0) : operator new[](0, LINE);
        found += wrong("nothing", blocks[at], 1, at % 2 ? 16 : 64);
        for (int before = 0; before < at; before++) found += blocks[before] == blocks[at];
    }
    for (int at = 0; at < 16; at++) {
        if (at % 2) operator delete[](blocks[at], size(0));
        else operator delete[](blocks[at], size(0), LINE);
    }
    return found;
}

static int without_the_end() {
    int found = !!operator new(MOST, std::nothrow) + !!operator new[](MOST, std::nothrow) +
                !!operator new(MOST - 62, LINE, std::nothrow) +
                !!operator new[](MOST - 62, LINE, std::nothrow);
    void *block = operator new(1000, std::nothrow);
    found += wrong("nothrow", block, 1000, 16);
    operator delete(block, std::nothrow);
    block = operator new[](1000, PAGES, std::nothrow);
    found += wrong("nothrow of pages", block, 1000, 16384);
    operator delete[](block, PAGES, std::nothrow);
    return found;
}

int main(int count, char **words) {
    if (count > 1) return printf("%p\n", impossible(atoi(words[1]))) & 0;
    int found = blocks_of_nothing() + without_the_end();
    for (size bytes = 1; bytes < 100000; bytes = bytes * 3 + 1) {
        void *block = operator new(bytes, PAGES);
        found += wrong("pages", block, bytes, 16384);
        operator delete(block, bytes, PAGES);
    }
    Line *line = new Line, *lines = new Line[3];
    found += wrong("line", line, 64, 64) + wrong("lines", lines, 192, 64);
    delete line;
    delete[] lines;
    delete[] new char[5];
    return printf("wrong: %d\n", found) & 0;
}
