/* An object that breaks every rule of tests/archive.py, which must find each. */
int puts(const char *text);

int gw_counter, gw_start = 3;
static __thread int gw_own;

__attribute__((constructor)) void gw_begin(void) {
    puts("begin");
    gw_counter++;
}

/* An inner function that is passed on needs code on the stack. */
int gw_parse(int (*then)(int)) {
    int base = gw_start;
    int inner(int more) {
        return base + more + gw_own++;
    }
    return then ? then(1) : gw_parse(inner);
}
