// Preloaded under a program: refuses the growth of memory whose number REFUSED_GROWTH says, counted
// from 1, and each later one too where a `+` stands after the number. At each refusal it writes a
// byte to descriptor 9, so that the caller knows that the program met one.
// It needs no header, so that the toolchain's own compiler builds it.

typedef unsigned long size_t;
void *__libc_malloc(size_t size);
void *__libc_realloc(void *old, size_t size);
char *getenv(const char *name);
long strtol(const char *text, char **end, int base);
long write(int descriptor, const void *bytes, size_t count);

static long growths;

static int is_refused(void) {
    static long refused;
    static int with_later;
    if (refused == 0) {
        const char *text = getenv("REFUSED_GROWTH");
        char *end = 0;
        refused = text ? strtol(text, &end, 10) : -1;
        with_later = text && *end == '+';
    }
    growths++;
    if (growths != refused && !(with_later && growths > refused)) return 0;
    write(9, "!", 1);
    return 1;
}

void *malloc(size_t size) {
    return is_refused() ? 0 : __libc_malloc(size);
}

void *realloc(void *old, size_t size) {
    return is_refused() ? 0 : __libc_realloc(old, size);
}
