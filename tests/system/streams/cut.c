// Preloaded under the program: how its reads, writes and opens go, as the environment says. Calls
// are counted from 1.
//   FAULT=E          the errno of what fails (28 if it isn't said); with 0 a write takes nothing
//   TAKES_1=K        standard output takes K bytes in all and then fails; TAKES_2: standard error; TAKES_0: other files
//   FAILS_READ=N     the read of this number and those after it fail
//   FAILS_WRITE=N    the write to standard output of this number and those after it fail
//   FAILS_OPEN=N     the open of this number fails
//   ONCE=1           the read or the write of the number fails, and those after it don't
//   OF_REPORT=1      FAILS_WRITE counts the writes to standard error instead
//   PIECE=K          a read or a write passes K bytes at most
//   INTERRUPTS=WORD  every second call is interrupted before it does anything: of the reads, the
//                    writes, the opens, or the writes to standard output (1) or standard error (2)
//   IN_A_ROW=N       such a call is interrupted so many times in a row before one of them passes
//   STOPS_READ=N     the program stops itself before the read of this number
//   FAILS_CALL=N     of the other calls on files and of the clock that of this number fails
//   ENDS_CALL=N      a signal ends the program before the call of this number, of all that are told here
//   ENDLESS=N        each read after the first, which passes, gives one zero byte; that of number N
//                    and each after it also writes a byte to descriptor 9
// It needs no header, so that the toolchain's own compiler builds it. In a program of another name
// it does nothing.

typedef unsigned long size_t;
extern char *program_invocation_short_name;
int *__errno_location(void);
char *getenv(const char *name);
long strtol(const char *text, char **end, int base);
int strcmp(const char *one, const char *other);
int raise(int signal);
void *dlsym(void *where, const char *name);

enum { INTERRUPTED = 4, NO_SPACE = 28, KILL = 9, STOP = 19 };

static long fault, takes[3], fails_read, fails_write, fails_open, fails_call, ends_call, piece, stops_read, endless, once;
static long failing; // the descriptor of the writes that fail
static int interrupts; // the first letter of the word
static long in_a_row, reads, writes, opens, others, all, taken[3], calls;
static long (*next_read)(int, void *, size_t);
static long (*next_write)(int, const void *, size_t);
static int (*next_open)(const char *, int, unsigned);

static long number(const char *name, long otherwise) {
    const char *text = getenv(name);
    return text ? strtol(text, 0, 10) : otherwise;
}

static void prepare(void) {
    static int is_ready;
    if (is_ready) return;
    is_ready = 1;
    next_read = (long (*)(int, void *, size_t))dlsym((void *)-1L, "read");
    next_write = (long (*)(int, const void *, size_t))dlsym((void *)-1L, "write");
    next_open = (int (*)(const char *, int, unsigned))dlsym((void *)-1L, "open");
    takes[0] = takes[1] = takes[2] = -1;
    if (strcmp(program_invocation_short_name, "rtcm2rinex") != 0) return;
    fault = number("FAULT", NO_SPACE);
    takes[0] = number("TAKES_0", -1);
    takes[1] = number("TAKES_1", -1);
    takes[2] = number("TAKES_2", -1);
    fails_read = number("FAILS_READ", 0);
    fails_write = number("FAILS_WRITE", 0);
    fails_open = number("FAILS_OPEN", 0);
    fails_call = number("FAILS_CALL", 0);
    ends_call = number("ENDS_CALL", 0);
    once = number("ONCE", 0);
    failing = 1 + number("OF_REPORT", 0);
    piece = number("PIECE", 0);
    stops_read = number("STOPS_READ", 0);
    endless = number("ENDLESS", 0);
    interrupts = getenv("INTERRUPTS") ? getenv("INTERRUPTS")[0] : 0;
    in_a_row = number("IN_A_ROW", 1);
}

static long fail(long error) {
    if (error == 0) return 0;
    *__errno_location() = error;
    return -1;
}

// Whether the call of this number fails, where this one fails, and those after it or not.
static int is_failing(long call, long fails) {
    return fails && (once ? call == fails : call >= fails);
}

static int is_interrupted(int kind) {
    return interrupts == kind && ++calls % (in_a_row + 1) != 0;
}

static void begin(void) {
    prepare();
    if (++all == ends_call) raise(KILL);
}

long read(int descriptor, void *bytes, size_t count) {
    begin();
    if (is_interrupted('r')) return fail(INTERRUPTED);
    ++reads;
    if (endless && reads > 1) {
        if (reads >= endless) next_write(9, "!", 1);
        *(char *)bytes = 0;
        return 1;
    }
    if (reads == stops_read) raise(STOP);
    if (is_failing(reads, fails_read)) return fail(fault);
    return next_read(descriptor, bytes, piece && count > piece ? piece : count);
}

long write(int descriptor, const void *bytes, size_t count) {
    begin();
    if (is_interrupted('w') || is_interrupted('0' + descriptor)) return fail(INTERRUPTED);
    if (piece && count > piece) count = piece;
    if (descriptor == failing && is_failing(++writes, fails_write)) return fail(fault);
    int to = descriptor == 1 || descriptor == 2 ? descriptor : 0;
    if (takes[to] >= 0) {
        size_t room = takes[to] - taken[to];
        if (room == 0 && count > 0) return fail(fault);
        if (count > room) count = room;
    }
    long done = next_write(descriptor, bytes, count);
    if (done > 0) taken[to] += done;
    return done;
}

int open(const char *name, int flags, unsigned mode) {
    begin();
    if (is_interrupted('o')) return fail(INTERRUPTED);
    if (++opens == fails_open) return fail(fault);
    return next_open(name, flags, mode);
}

#define OTHER(call, parameters, arguments) \
    int call parameters { \
        begin(); \
        if (++others == fails_call) return fail(fault); \
        return ((int (*) parameters)dlsym((void *)-1L, #call))arguments; \
    }
OTHER(statx, (int folder, const char *name, int flags, unsigned mask, void *found), (folder, name, flags, mask, found))
OTHER(clock_gettime, (int clock, void *time), (clock, time))
OTHER(fchmod, (int descriptor, unsigned mode), (descriptor, mode))
OTHER(fsync, (int descriptor), (descriptor))
OTHER(link, (const char *from, const char *to), (from, to))
OTHER(rename, (const char *from, const char *to), (from, to))
OTHER(unlink, (const char *name), (name))
