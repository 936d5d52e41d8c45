/* The library from which `real.py` makes objects with several linkers. It has symbols of every kind
 * that a linker writes. */
extern int other(int);
extern int perhaps(int) __attribute__((weak));
extern int amount;

static int kept = 1;
int counter = 7;
int zeroed[4];
const char label[] = "label";
int *pointer = &counter;

int call(int n) { return other(n) + counter + kept++; }
int call_if_there(int n) { return perhaps ? perhaps(n) : amount; }
int tail_of_call_if_there(void) { return 0; }
__attribute__((weak)) int weak_call(void) { return 1; }
__attribute__((weak)) int weak_datum = 2;
__attribute__((visibility("hidden"))) int hidden_call(void) { return kept; }
__attribute__((visibility("internal"))) int internal_call(void) { return kept; }
__attribute__((visibility("protected"))) int protected_call(void) { return 3; }
__attribute__((visibility("protected"))) int protected_datum = 4;
int (*operation)(void) = hidden_call;

__asm__(".globl absolute\n.set absolute, 0x123456789abcdef0\n"
        ".globl sized\n.type sized, @object\n.size sized, 0x10000000000\n.set sized, 1\n"
        ".pushsection .text\n"
        ".globl no_type\nno_type: ret\n"
        ".globl \"two words\"\n.type \"two words\", @function\n\"two words\": ret\n"
        ".globl \"back\\\\slash\"\n\"back\\\\slash\": ret\n"
        ".popsection\n");
