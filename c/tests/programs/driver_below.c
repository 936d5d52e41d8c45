/* A library that the module needs. */
int below(void) { return 7; }
int shared_name(void) { return 3; }
