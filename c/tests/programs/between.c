/* A preload: its `who` is found before that of libone.so. */
const char *who(void) {
    return "between";
}
