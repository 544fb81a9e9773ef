// Linked into the program of the rows, which `rt try` builds with AddressSanitizer: the malloc,
// realloc and free of that call the last three functions here. These refuse the growth that the
// program names, and count the blocks and the bytes that are held. It needs no header, so that the
// toolchain's own compiler builds it.

typedef unsigned long size_t;
void *___interceptor_malloc(size_t size);
void *___interceptor_realloc(void *old, size_t size);
void ___interceptor_free(void *old);

// How many bytes were asked for when this block was taken.
size_t __sanitizer_get_allocated_size_fast(const void *block);

// The growths up to the refused one, itself counted; 0 where none is to be refused.
static unsigned long left;

static unsigned long refusals;

static unsigned long blocks;

static unsigned long bytes;

// The greatest number of bytes since the count of it began.
static unsigned long most;

// Refuses the growth with this number, counted from 1; none with 0.
void refuse_growth(unsigned long number) {
    left = number;
    refusals = 0;
}

// Refuses none from now on.
void allow_growth(void) {
    left = 0;
}

// How many growths were refused since one was named.
unsigned long refused_growths(void) {
    return refusals;
}

// How many blocks were taken and not given back.
unsigned long held_blocks(void) {
    return blocks;
}

// How many bytes were taken and not given back.
unsigned long held_bytes(void) {
    return bytes;
}

// The greatest number of bytes is counted from now on.
void begin_most(void) {
    most = bytes;
}

// The greatest number of bytes that were held at once.
unsigned long most_bytes(void) {
    return most;
}

// A block takes the place of one that had so many bytes.
static void count(const void *block, size_t before) {
    bytes += __sanitizer_get_allocated_size_fast(block) - before;
    if (bytes > most) most = bytes;
}

static int is_refused(void) {
    if (left == 0 || --left > 0) return 0;
    refusals++;
    return 1;
}

void *__interceptor_malloc(size_t size) {
    void *block = is_refused() ? 0 : ___interceptor_malloc(size);
    if (block != 0) {
        blocks++;
        count(block, 0);
    }
    return block;
}

void *__interceptor_realloc(void *old, size_t size) {
    size_t before = old == 0 ? 0 : __sanitizer_get_allocated_size_fast(old);
    void *block = is_refused() ? 0 : ___interceptor_realloc(old, size);
    if (block != 0) {
        if (old == 0) blocks++;
        count(block, before);
    }
    return block;
}

void __interceptor_free(void *old) {
    if (old != 0) {
        blocks--;
        bytes -= __sanitizer_get_allocated_size_fast(old);
    }
    ___interceptor_free(old);
}
