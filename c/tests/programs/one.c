/* A library. */
int one_count = 1;
const char *one_name = "one";

int one(void) {
    return one_count++;
}

const char *who(void) {
    return one_name;
}
