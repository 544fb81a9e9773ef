// Preloaded under a program: counts the bytes that it holds by malloc, calloc and realloc, and
// writes two numbers of 20 digits to descriptor 9: how many it held at most, and how many from its
// fourth read on. Each is written again when it grows.
// It needs no header, so that the toolchain's own compiler builds it.

typedef unsigned long size_t;
void *__libc_malloc(size_t size);
void *__libc_calloc(size_t count, size_t size);
void *__libc_realloc(void *old, size_t size);
void __libc_free(void *old);
long pwrite(int descriptor, const void *bytes, size_t count, long place);
long __read(int descriptor, void *bytes, size_t count);

// What stands before each block: how many bytes were asked for, and a mark by which a block of ours
// is known.
struct head {
    size_t size;
    size_t mark;
};

static const size_t MARK = 0x5a17c0de5a17c0de;

static size_t held, reads;

// At most, and from the fourth read on.
static size_t greatest[2];

static void look(int at) {
    if (held <= greatest[at]) return;
    greatest[at] = held;
    char digits[20];
    size_t left = held;
    for (int i = 19; i >= 0; i--) {
        digits[i] = '0' + left % 10;
        left /= 10;
    }
    pwrite(9, digits, 20, 20 * at);
}

static void *count(struct head *head, size_t size) {
    if (!head) return 0;
    head->size = size;
    head->mark = MARK ^ (size_t)head;
    held += size;
    look(0);
    if (reads >= 4) look(1);
    return head + 1;
}

static struct head *head_of(void *block) {
    struct head *head = (struct head *)block - 1;
    return head->mark == (MARK ^ (size_t)head) ? head : 0;
}

void *malloc(size_t size) {
    return count(__libc_malloc(size + sizeof(struct head)), size);
}

void *calloc(size_t number, size_t size) {
    if (size && number > (size_t)-1 / 2 / size) return 0;
    return count(__libc_calloc(1, number * size + sizeof(struct head)), number * size);
}

void *realloc(void *old, size_t size) {
    if (!old) return malloc(size);
    struct head *head = head_of(old);
    if (!head) return __libc_realloc(old, size);
    size_t before = head->size;
    head = __libc_realloc(head, size + sizeof(struct head));
    if (!head) return 0;
    held -= before;
    return count(head, size);
}

void free(void *old) {
    if (!old) return;
    struct head *head = head_of(old);
    if (!head) {
        __libc_free(old);
        return;
    }
    held -= head->size;
    head->mark = 0;
    __libc_free(head);
}

long read(int descriptor, void *bytes, size_t size) {
    reads++;
    if (reads >= 4) look(1);
    return __read(descriptor, bytes, size);
}
