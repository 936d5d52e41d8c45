/* The program linked.so, made by gcc 12.2 and GNU ld 2.40:
 *
 *     gcc -O1 -fPIC -fvisibility=hidden -fno-asynchronous-unwind-tables -fno-stack-protector -fcf-protection=none \
 *         -nostdlib -shared -s -Wl,--hash-style=sysv,--build-id=none,-z,noseparate-code,-z,norelro \
 *         -o linked.so linked.c
 *
 * linked.image was made from `readelf -rlW linked.so` and the file's bytes, and its sections compared with
 * `objdump -s linked.so`: two segments, four RELATIVE relocations at 0x12d0, 0x12e0, 0x12e8 and 0x12f0 with the addends
 * 0x1b0, 0x1e1, 0x12f8 and 0x12e0, and eight bytes of memory behind the file's.
 */
static const char greeting[] = "hello";
static int counter;
static const void *volatile table[] = {greeting, &counter, (const void *)table};
static int twice(int n) { return n + n; }
static int (*volatile operation)(int) = twice;
int _start(void) { return operation(*(const char *)table[0]) + counter++; }
