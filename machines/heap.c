/* The heap, for a machine whose C the toolchain lacks: what the crate libc of the toolchain declares in src/heap.rt, over the C
   library's malloc. A declaration stands here in place of a header, so that the toolchain alone compiles this file. */
typedef __SIZE_TYPE__ size_t;
void *malloc(size_t size);
void *realloc(void *at, size_t size);
void free(void *at);

/* The answer, laid out as the struct Tried of the crate: whether there is memory, and where. */
struct tried {
    _Bool ok;
    void *at;
};

/* What a refusal points to, since the pointer of an answer is never null. Nobody reads or writes it. */
static char nothing;

static struct tried answer(void *at) {
    struct tried tried = {at != 0, at ? at : &nothing};
    return tried;
}

/* Contract: tries to get new memory of size bytes, whose place is a multiple of the alignment, a power of two up to 16. If there
   is memory, the caller owns it until it frees it; a block of no bytes too has a place of its own. malloc aligns to 16. */
struct tried rattle_alloc(size_t size, size_t alignment) { return answer(malloc(size ? size : alignment)); }

/* Contract: tries to make the block at this place one of size bytes with the same alignment, whose first kept bytes are as they
   were. It may move. If there is no memory, the block is as it was. The size that is asked for is never 0, since realloc would
   free the block. */
struct tried rattle_realloc(void *at, size_t kept, size_t size, size_t alignment) {
    (void)kept;
    return answer(realloc(at, size ? size : alignment));
}

/* Contract: frees a block that either call answered. */
void rattle_dealloc(void *at) { free(at); }
