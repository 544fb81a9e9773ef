// Preloaded under the program: adds a line to the file TELLS for each open of a file, each call that looks at, makes, changes,
// renames or removes one, and each time or variable that is asked for. An open to read is handed on; what else is told is
// refused, unless HANDS_ON is set. Who looks at the variables without a call is ended by a signal.
// It needs no header, so that the toolchain's own compiler builds it.

typedef unsigned long size_t;
extern char **environ;
size_t strlen(const char *text);
int strncmp(const char *one, const char *other, size_t count);
long write(int descriptor, const void *bytes, size_t count);
void *dlsym(void *where, const char *name);

enum { WRITES = 3, CREATES = 0100, TRUNCATES = 01000, APPENDS = 02000 };

static int (*next_open)(const char *, int, unsigned);
static int (*next_openat)(int, const char *, int, unsigned);

// What TELLS is.
static const char *teller = "/dev/null";

// Whether HANDS_ON is set.
static int hands_on;

static void tell(const char *call, const char *name) {
    static int told = -1;
    if (told < 0) told = next_open(teller, 1 | APPENDS, 0);
    write(told, call, strlen(call));
    write(told, " ", 1);
    write(told, name, strlen(name));
    write(told, "\n", 1);
}

__attribute__((constructor)) static void prepare(void) {
    next_open = (int (*)(const char *, int, unsigned))dlsym((void *)-1L, "open");
    next_openat = (int (*)(int, const char *, int, unsigned))dlsym((void *)-1L, "openat");
    for (char **each = environ; each && *each; each++) {
        if (strncmp(*each, "TELLS=", 6) == 0) teller = *each + 6;
        hands_on |= strncmp(*each, "HANDS_ON=", 9) == 0;
    }
    if (!hands_on) environ = (char **)8; // where nothing can be read
}

static int refuse(const char *call, const char *name) {
    tell(call, name);
    return -1;
}

static int is_to_read(int flags) {
    return (flags & (WRITES | CREATES | TRUNCATES)) == 0;
}

int open(const char *name, int flags, unsigned mode) {
    tell(is_to_read(flags) ? "reads" : "writes", name);
    if (!is_to_read(flags) && !hands_on) return -1;
    return next_open(name, flags, mode);
}

int openat(int folder, const char *name, int flags, unsigned mode) {
    if (!is_to_read(flags)) return refuse("writes", name);
    tell("reads", name);
    return next_openat(folder, name, flags, mode);
}

char *getenv(const char *name) {
    tell("getenv", name);
    return 0;
}

char *secure_getenv(const char *name) {
    tell("secure_getenv", name);
    return 0;
}

// Those that are handed on if HANDS_ON is set.
#define AS(call, parameters, arguments, name) \
    int call parameters { \
        tell(#call, name); \
        return hands_on ? ((int (*) parameters)dlsym((void *)-1L, #call))arguments : -1; \
    }
AS(link, (const char *from, const char *to), (from, to), to)
AS(rename, (const char *from, const char *to), (from, to), to)
AS(unlink, (const char *name), (name), name)
AS(fchmod, (int descriptor, unsigned mode), (descriptor, mode), "")
AS(fsync, (int descriptor), (descriptor), "")
AS(statx, (int folder, const char *name, int flags, unsigned mask, void *found), (folder, name, flags, mask, found), name)
AS(clock_gettime, (int clock, void *time), (clock, time), "")

#define OF_A_NAME(call) int call(const char *name) { return refuse(#call, name); }
#define IN_A_FOLDER(call) int call(int folder, const char *name) { return refuse(#call, name); }
#define OF_A_DESCRIPTOR(call) int call(int descriptor) { return refuse(#call, ""); }

OF_A_NAME(creat) OF_A_NAME(rmdir) OF_A_NAME(symlink) OF_A_NAME(mkdir)
OF_A_NAME(mkfifo) OF_A_NAME(mknod) OF_A_NAME(mkstemp) OF_A_NAME(chmod) OF_A_NAME(chown) OF_A_NAME(lchown) OF_A_NAME(truncate)
OF_A_NAME(utimes) OF_A_NAME(execve)
IN_A_FOLDER(unlinkat) IN_A_FOLDER(renameat) IN_A_FOLDER(renameat2) IN_A_FOLDER(linkat) IN_A_FOLDER(mkdirat) IN_A_FOLDER(mkfifoat)
IN_A_FOLDER(mknodat) IN_A_FOLDER(fchmodat) IN_A_FOLDER(fchownat) IN_A_FOLDER(utimensat)
OF_A_DESCRIPTOR(fchown) OF_A_DESCRIPTOR(ftruncate) OF_A_DESCRIPTOR(futimens) OF_A_DESCRIPTOR(flock) OF_A_DESCRIPTOR(fdatasync)
