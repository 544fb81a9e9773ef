// Preloaded under a script: looks at the calls of one kind for paths that have a text, and fails one of them or each, or kills the
// process and its group there. The variables of the environment are FAULT_CALL (rename, unlink, stat or open), FAULT_PATH (the text),
// FAULT_AT (which of these calls; 0 is each), FAULT_ERRNO (the fault; 0 kills), and FAULT_COUNT (a file that gets a byte for each).
// It needs no header, so that the toolchain's own compiler builds it.

typedef unsigned long size_t;
typedef int (*opening)(const char *path, int flags, int mode);
typedef int (*looking)(const char *path, void *found);
typedef int (*looking_before)(int version, const char *path, void *found);
char *getenv(const char *name);
char *strstr(const char *text, const char *part);
int strcmp(const char *one, const char *other);
int atoi(const char *text);
int kill(int process, int signal);
int close(int descriptor);
long write(int descriptor, const void *bytes, size_t count);
int *__errno_location(void);
void *dlsym(void *library, const char *name);

static void *const NEXT = (void *)-1;
static const int APPEND = 02101;
static int calls;

static const char *word(const char *name) {
    const char *text = getenv(name);
    return text ? text : "";
}

static void count(void) {
    if (!*word("FAULT_COUNT")) return;
    int file = ((opening)dlsym(NEXT, "open64"))(word("FAULT_COUNT"), APPEND, 0644);
    write(file, "x", 1);
    close(file);
}

// Is this call to fail?
static int fails(const char *kind, const char *path) {
    if (strcmp(kind, word("FAULT_CALL")) || !path || !strstr(path, word("FAULT_PATH"))) return 0;
    calls++;
    count();
    int at = atoi(word("FAULT_AT")), fault = atoi(word("FAULT_ERRNO"));
    if (at && at != calls) return 0;
    if (!fault) kill(0, 9);
    *__errno_location() = fault;
    return 1;
}

int rename(const char *old, const char *path) {
    if (fails("rename", path)) return -1;
    return ((int (*)(const char *, const char *))dlsym(NEXT, "rename"))(old, path);
}

int unlink(const char *path) {
    return fails("unlink", path) ? -1 : ((int (*)(const char *))dlsym(NEXT, "unlink"))(path);
}

int stat(const char *path, void *found) {
    return fails("stat", path) ? -1 : ((looking)dlsym(NEXT, "stat"))(path, found);
}

int stat64(const char *path, void *found) {
    return fails("stat", path) ? -1 : ((looking)dlsym(NEXT, "stat64"))(path, found);
}

// What a program calls for these two that was built with a glibc before 2.33.
int __xstat(int version, const char *path, void *found) {
    return fails("stat", path) ? -1 : ((looking_before)dlsym(NEXT, "__xstat"))(version, path, found);
}

int __xstat64(int version, const char *path, void *found) {
    return fails("stat", path) ? -1 : ((looking_before)dlsym(NEXT, "__xstat64"))(version, path, found);
}

int open(const char *path, int flags, int mode) {
    return fails("open", path) ? -1 : ((opening)dlsym(NEXT, "open"))(path, flags, mode);
}

int open64(const char *path, int flags, int mode) {
    return fails("open", path) ? -1 : ((opening)dlsym(NEXT, "open64"))(path, flags, mode);
}
