/* Calls each function of machines/ and compares its answer with the contract beside it. It is run with three words and the variables
   VALUE and EMPTY, as in the script run beside it. Each test prints a line. */
typedef __SIZE_TYPE__ size_t;
typedef __INTPTR_TYPE__ ssize_t;
typedef __UINTPTR_TYPE__ address;
struct tried {
    _Bool ok;
    void *at;
};
struct tried rattle_alloc(size_t size, size_t alignment);
struct tried rattle_realloc(void *at, size_t kept, size_t size, size_t alignment);
void rattle_dealloc(void *at);
ssize_t rattle_arg(size_t i, unsigned char *buffer, size_t room);
ssize_t rattle_env(const char *name, unsigned char *buffer, size_t room);
int rattle_errno(void);
void rattle_set_errno(int error);
ssize_t __write(int descriptor, const void *bytes, size_t length);
int puts(const char *line);
int printf(const char *form, ...);
int strcmp(const char *a, const char *b);
int close(int descriptor);
int pipe2(int ends[2], int flags);
ssize_t read(int descriptor, void *bytes, size_t length);
int fflush(void *all);

static int passed, failed;
static void holds(const char *name, _Bool is_so) {
    printf("%s %s\n", is_so ? "ok" : "FAILED", name);
    if (is_so) passed++;
    else failed++;
}

/* Bytes from 1 on, and whether they are still there. */
static void fill(unsigned char *at, size_t length) {
    for (size_t i = 0; i < length; i++) at[i] = (unsigned char)(i % 251 + 1);
}
static _Bool is_filled(const unsigned char *at, size_t length) {
    for (size_t i = 0; i < length; i++)
        if (at[i] != i % 251 + 1) return 0;
    return 1;
}

static const size_t MUCH = (size_t)1 << 62; /* no machine has it */

/* Whether a place comes again among blocks that are freed at once, as they are or after they grew: a block that is not freed has its
   place alone. */
static _Bool comes_again(_Bool grows) {
    static void *places[1000];
    for (size_t i = 0; i < sizeof places / sizeof *places; i++) {
        struct tried block = rattle_alloc(1000, 8);
        places[i] = block.at;
        if (grows) block = rattle_realloc(block.at, 1000, 100000, 8);
        rattle_dealloc(block.at);
        for (size_t k = 0; k < i; k++)
            if (places[k] == places[i]) return 1;
    }
    return 0;
}

static void heap(void) {
    static const size_t sizes[] = {0, 1, 15, 16, 17, 4096, 1000000};
    _Bool is_there = 1, is_aligned = 1, is_kept = 1;
    for (size_t s = 0; s < sizeof sizes / sizeof *sizes; s++)
        for (size_t alignment = 1; alignment <= 16; alignment *= 2) {
            struct tried one = rattle_alloc(sizes[s], alignment), other = rattle_alloc(sizes[s], alignment);
            is_there &= one.ok && other.ok && one.at && other.at && one.at != other.at;
            is_aligned &= (address)one.at % alignment == 0 && (address)other.at % alignment == 0;
            fill(one.at, sizes[s]);
            struct tried grown = rattle_realloc(one.at, sizes[s], 3 * sizes[s] + 40, alignment);
            is_there &= grown.ok && grown.at;
            is_aligned &= (address)grown.at % alignment == 0;
            is_kept &= is_filled(grown.at, sizes[s]);
            struct tried shrunk = rattle_realloc(grown.at, sizes[s] / 2, sizes[s] / 2, alignment);
            is_there &= shrunk.ok && shrunk.at;
            is_aligned &= (address)shrunk.at % alignment == 0;
            is_kept &= is_filled(shrunk.at, sizes[s] / 2);
            rattle_dealloc(shrunk.at);
            rattle_dealloc(other.at);
        }
    holds("memory_is_got", is_there);
    holds("memory_is_aligned", is_aligned);
    holds("memory_is_kept_when_it_moves", is_kept);
    struct tried refused = rattle_alloc(MUCH, 8);
    holds("too_much_is_refused", !refused.ok && refused.at);
    struct tried block = rattle_alloc(100, 1);
    fill(block.at, 100);
    refused = rattle_realloc(block.at, 100, MUCH, 1);
    holds("a_refused_block_is_as_it_was", !refused.ok && refused.at && is_filled(block.at, 100));
    rattle_dealloc(block.at);
    holds("memory_is_freed", comes_again(0));
    holds("memory_is_freed_when_it_moves", comes_again(1));
}

/* What get answers in a buffer of this room, if the text is this one and the byte behind the room stays. */
typedef ssize_t get(unsigned char *buffer, size_t room);
static _Bool gives(get *get, const char *text, size_t length) {
    unsigned char buffer[64];
    for (size_t room = 0; room <= length + 1; room++) {
        for (size_t i = 0; i < sizeof buffer; i++) buffer[i] = 0xFF;
        if (get(buffer, room) != (room < length ? -2 : (ssize_t)length)) return 0;
        for (size_t i = 0; i < sizeof buffer; i++) {
            _Bool is_written = i < room && i < length;
            if (buffer[i] != (is_written ? (unsigned char)text[i] : 0xFF)) return 0;
        }
    }
    return 1;
}
static ssize_t first(unsigned char *buffer, size_t room) { return rattle_arg(1, buffer, room); }
static ssize_t empty(unsigned char *buffer, size_t room) { return rattle_arg(2, buffer, room); }
static ssize_t last(unsigned char *buffer, size_t room) { return rattle_arg(3, buffer, room); }
static ssize_t value(unsigned char *buffer, size_t room) { return rattle_env("VALUE", buffer, room); }
static ssize_t no_value(unsigned char *buffer, size_t room) { return rattle_env("EMPTY", buffer, room); }

static void texts(char **argv) {
    unsigned char none[1] = {7}, name[4096];
    ssize_t length = rattle_arg(0, name, sizeof name - 1);
    name[length < 0 ? 0 : length] = 0;
    holds("argument_0_is_the_name", length > 0 && !strcmp((char *)name, argv[0]));
    holds("an_argument", gives(first, "--near", 6));
    holds("an_empty_argument", gives(empty, "", 0));
    holds("an_argument_of_any_bytes", gives(last, "\x01\xff \xc3\xa4", 5));
    holds("no_more_arguments", rattle_arg(4, none, 1) == -1 && rattle_arg(~(size_t)0, none, 1) == -1 &&
        rattle_arg(((size_t)1 << 32) + 1, none, 1) == -1 && none[0] == 7);
    holds("a_variable", gives(value, "a=b c", 5));
    holds("an_empty_variable", gives(no_value, "", 0));
    holds("no_variable", rattle_env("NOT_SET", none, 1) == -1 && rattle_env("", none, 1) == -1 && none[0] == 7);
}

/* A pipe that does not wait takes a part of many bytes, and then none. */
static void parts(void) {
    static unsigned char many[1 << 20], back[1 << 20];
    const int no_wait = 04000, again = 11; /* O_NONBLOCK and EAGAIN on both machines */
    int ends[2];
    fill(many, sizeof many);
    if (pipe2(ends, no_wait)) ends[0] = ends[1] = -1;
    ssize_t length = __write(ends[1], many, sizeof many);
    holds("write_of_no_more", length > 0 && __write(ends[1], many, 1) == -1 && rattle_errno() == again);
    holds("write_of_a_part", (size_t)length < sizeof many && read(ends[0], back, sizeof back) == length && is_filled(back, (size_t)length));
}

int main(int argc, char **argv) {
    heap();
    texts(argv);
    rattle_set_errno(5);
    holds("errno_is_set", argc == 4 && rattle_errno() == 5 && rattle_errno() == 5);
    holds("errno_of_a_failed_call", close(-1) == -1 && rattle_errno() == 9);
    parts();
    fflush(0);
    holds("write", __write(1, "", 0) == 0 && __write(1, "written\n", 8) == 8 && __write(-1, "x", 1) == -1 && rattle_errno() == 9);
    printf("%d passed, %d failed\n", passed, failed);
    return failed > 0;
}
