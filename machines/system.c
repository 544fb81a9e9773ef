/* The arguments, the environment and errno, for a machine whose C the toolchain lacks: those functions that the crate os of the
   toolchain declares in src/c.rt and the program calls. A declaration stands here in place of a header, so that the toolchain
   alone compiles this file. With -DMUSL it is for the C library musl, else for glibc. */
typedef __SIZE_TYPE__ size_t;
typedef __INTPTR_TYPE__ ssize_t;
char *getenv(const char *name);
int *__errno_location(void); /* where both C libraries keep the errno of this thread */

static int count;
static char **words;

#ifdef MUSL
/* musl gives a constructor no arguments, so the linker puts this function in the place of main (--wrap=main). */
int __real_main(int argc, char **argv);
int __wrap_main(int argc, char **argv) {
    count = argc;
    words = argv;
    return __real_main(argc, argv);
}

/* The program asks for write under this name of glibc, which musl lacks. Contract: that of POSIX's write. */
ssize_t write(int descriptor, const void *bytes, size_t length);
ssize_t __write(int descriptor, const void *bytes, size_t length) { return write(descriptor, bytes, length); }
#else
/* glibc gives each constructor the arguments of main. */
__attribute__((constructor)) static void keep(int argc, char **argv) {
    count = argc;
    words = argv;
}
#endif

/* Puts a text at the start of a buffer of this room, without its 0, and answers its length; -1 if there is no text; -2 if it does
   not fit, and then the buffer is full. */
static ssize_t put(const char *text, unsigned char *buffer, size_t room) {
    size_t length = 0;
    if (!text) return -1;
    for (; text[length]; length++) {
        if (length == room) return -2;
        buffer[length] = (unsigned char)text[length];
    }
    return (ssize_t)length;
}

/* Contract: puts argument number i at the start of the buffer and answers its length; -1 if there is no such argument; -2 if it
   does not fit, and then the buffer is full. Argument 0 is the name of the program. */
ssize_t rattle_arg(size_t i, unsigned char *buffer, size_t room) {
    return i < (size_t)count ? put(words[i], buffer, room) : -1;
}

/* Contract: puts the value of the environment variable with this name at the start of the buffer and answers its length; -1 if
   there is no such variable; -2 if the value does not fit, and then the buffer is full. A 0 ends the name. */
ssize_t rattle_env(const char *name, unsigned char *buffer, size_t room) { return put(getenv(name), buffer, room); }

/* Contract: gives the errno that the last failed call left. */
int rattle_errno(void) { return *__errno_location(); }

/* Contract: sets errno. */
void rattle_set_errno(int error) { *__errno_location() = error; }
