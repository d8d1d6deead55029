/* Refuses a request for memory on purpose. It is loaded before a program by LD_PRELOAD.

   With a number n in the environment, as REFUSE, the n-th request is refused, from 1, and the line
   "refused" is then written to descriptor 9.

   It includes no header, so that it compiles without those of the C library. */

typedef unsigned long size;

/* The C library's own functions, under names that it exports for this purpose. */
void *__libc_malloc(size bytes);
void *__libc_realloc(void *block, size bytes);

char *getenv(const char *name);
long write(int file, const void *bytes, size count);

static size until; /* 0: no request is refused; n: the n-th from now on is */

__attribute__((constructor)) static void begin(void) {
    const char *digit = getenv("REFUSE");
    while (digit && *digit) until = until * 10 + (size)(*digit++ - '0');
}

static int refuses(void) {
    int refuse = until != 0 && --until == 0;
    if (refuse && write(9, "refused\n", 8) != 8) __builtin_trap();
    return refuse;
}

void *malloc(size bytes) {
    return refuses() ? 0 : __libc_malloc(bytes);
}

void *realloc(void *block, size bytes) {
    return refuses() ? 0 : __libc_realloc(block, bytes);
}
