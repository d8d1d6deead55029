/* Wraps a program's calls on files, to show its requests to the disk and to fail on purpose.
   It is loaded before a program by LD_PRELOAD.

   It writes a line to descriptor 9 for each call of fsync and of rename: `fsync NAME`, and
   `rename NAME to NAME`, with the last parts of the paths.

   DISK in the environment names a fault:
     lost        no fsync of a file succeeds: EIO
     unnamed     no fsync of a folder succeeds: EIO
     unnameable  the same with EINVAL, as on a file system that can't sync folders
     modeless    no mode of a file can be changed: EPERM
     parts       a write of more than one byte writes half of them
     taken       when the first file is locked, another file, locked too, gets its name: the first
                 is then NAME.moved

   It includes no header, so that it compiles without those of the C library. */

typedef unsigned long size;

int *__errno_location(void);
int access(const char *path, int how);
void *dlsym(void *library, const char *name);
char *getenv(const char *name);
int open(const char *path, int how, ...);
long readlink(const char *path, char *target, size room);

#define NEXT ((void *)-1)
#define EPERM 1
#define EIO 5
#define EINVAL 22
#define WRITE_AND_CREATE 0101
#define LOCK_ALONE 2
#define ROOM 4096

static const char *wish;

__attribute__((constructor)) static void begin(void) {
    wish = getenv("DISK");
}

static size length(const char *text) {
    size n = 0;
    while (text[n]) n++;
    return n;
}

static int wants(const char *word) {
    size n = length(word);
    if (!wish) return 0;
    for (size k = 0; k <= n; k++)
        if (wish[k] != word[k]) return 0;
    return 1;
}

static int fails(int why) {
    *__errno_location() = why;
    return -1;
}

/* Appends text to a line, as far as there is room. */
static void put(char *line, const char *text) {
    size n = length(line);
    while (*text && n < ROOM - 2) line[n++] = *text++;
    line[n] = 0;
}

static const char *last_part(const char *path) {
    const char *part = path;
    for (; *path; path++)
        if (*path == '/') part = path + 1;
    return part;
}

static void path_of(int file, char *path) {
    char digits[16];
    size n = sizeof digits;
    digits[--n] = 0;
    do digits[--n] = (char)('0' + file % 10);
    while (file /= 10);
    char link[64] = "/proc/self/fd/";
    put(link, digits + n);
    long count = readlink(link, path, ROOM - 1);
    path[count < 0 ? 0 : count] = 0;
}

static void tell(const char *line) {
    long (*next)(int, const void *, size) = dlsym(NEXT, "write");
    next(9, line, length(line));
}

int fsync(int file) {
    char path[ROOM], folder[ROOM] = "", line[ROOM] = "fsync ";
    path_of(file, path);
    put(folder, path);
    put(folder, "/.");
    int is_folder = access(folder, 0) == 0;
    put(line, last_part(path));
    put(line, "\n");
    tell(line);
    if (is_folder && wants("unnamed")) return fails(EIO);
    if (is_folder && wants("unnameable")) return fails(EINVAL);
    if (!is_folder && wants("lost")) return fails(EIO);
    int (*next)(int) = dlsym(NEXT, "fsync");
    return next(file);
}

int rename(const char *from, const char *to) {
    char line[ROOM] = "rename ";
    put(line, last_part(from));
    put(line, " to ");
    put(line, last_part(to));
    put(line, "\n");
    tell(line);
    int (*next)(const char *, const char *) = dlsym(NEXT, "rename");
    return next(from, to);
}

int fchmod(int file, unsigned mode) {
    if (wants("modeless")) return fails(EPERM);
    int (*next)(int, unsigned) = dlsym(NEXT, "fchmod");
    return next(file, mode);
}

long write(int file, const void *bytes, size count) {
    long (*next)(int, const void *, size) = dlsym(NEXT, "write");
    return next(file, bytes, wants("parts") && count > 1 ? count / 2 : count);
}

int flock(int file, int how) {
    int (*next)(int, int) = dlsym(NEXT, "flock");
    if (wants("taken")) {
        char path[ROOM], moved[ROOM] = "";
        int (*next_rename)(const char *, const char *) = dlsym(NEXT, "rename");
        path_of(file, path);
        put(moved, path);
        put(moved, ".moved");
        wish = 0;
        if (next_rename(path, moved) || next(open(path, WRITE_AND_CREATE, 0600), LOCK_ALONE))
            __builtin_trap();
    }
    return next(file, how);
}
