/* For LD_PRELOAD: lets one call of a program fail, or ends the program there, and tells what it did. It uses no header.
   $FAULT is `KIND NTH HOW`: of the calls of this kind the one of this number fails (HOW is `fail`), the program is ended before it (`end`), or
   half of its bytes are written and then the program is ended (`half`). KIND is growth, open, list, read, write, sync, rename, link, unlink, lock, look,
   mode, or any for each of these. Once that has come, $FAULT_MET has a line with the call's kind and file. Each call that changes what a folder
   holds, and each write, adds a line to $FAULT_TRACE. Where $FAULT_LINKS is set, no file gets a second name, as on some file systems. Where
   $FAULT_OTHERS is `FILE FIRST SECOND`, other commands replace the file: by FILE.1 before the look of the first number, and by FILE.2 before that of
   the second, each if nobody holds FILE then. */
typedef unsigned long size;
struct statx;

extern void *__libc_malloc(size);
extern void *__libc_realloc(void *, size);
extern void *dlsym(void *, const char *);
extern int *__errno_location(void);
extern char *getenv(const char *);
extern int getpid(void);
extern int kill(int, int);

#define NEXT(name) ((__typeof__(&name)) dlsym((void *) -1, #name))
#define EPERM 1
#define EIO 5
#define ENOSPC 28
#define SIGKILL 9
#define APPENDING 02101 /* O_WRONLY | O_CREAT | O_APPEND */

#define READ_WRITE 2
#define HOLD_AT_ONCE 6 /* LOCK_EX | LOCK_NB */

int open(const char *, int, ...);
int close(int);
int flock(int, int);
int rename(const char *, const char *);
long write(int, const void *, size);

enum { FAIL, END, HALF };

static int is_read, how;
static char kind[16];
static size nth, met;
static char paths[64][256];

static int is_same(const char *one, const char *other) {
    while (*one && *one == *other) one++, other++;
    return *one == *other;
}

/* Copies a word, and answers what stands after it. */
static const char *word(const char *from, char *to, size room) {
    while (*from && *from != ' ') {
        if (room > 1) *to++ = *from, room--;
        from++;
    }
    *to = 0;
    return *from ? from + 1 : from;
}

static size number_of(const char *digits) {
    size number = 0;
    for (; *digits; digits++) number = number * 10 + (size) (*digits - '0');
    return number;
}

static void read_fault(void) {
    const char *asked = getenv("FAULT");
    char number[24], name[8];
    is_read = 1;
    if (!asked) return;
    asked = word(asked, kind, sizeof kind);
    asked = word(asked, number, sizeof number);
    word(asked, name, sizeof name);
    nth = number_of(number);
    how = is_same(name, "half") ? HALF : is_same(name, "end") ? END : FAIL;
}

static void put(int to, const char *text) {
    size length = 0;
    while (text[length]) length++;
    NEXT(write)(to, text, length);
}

/* Adds a line to the file that a variable names. */
static void tell(const char *variable, const char *first, const char *second, const char *third) {
    const char *name = getenv(variable);
    int to = name ? NEXT(open)(name, APPENDING, 0666) : -1;
    if (to < 0) return;
    put(to, first), put(to, " "), put(to, second);
    if (third) put(to, " "), put(to, third);
    put(to, "\n");
    NEXT(close)(to);
}

static void end(void) { kill(getpid(), SIGKILL); }

/* Whether the next call of a kind, at a file, is the one that $FAULT names. */
static int is_met(const char *now, const char *file) {
    if (!is_read) read_fault();
    if (!nth || !(is_same(kind, now) || is_same(kind, "any")) || ++met != nth) return 0;
    tell("FAULT_MET", now, file, 0);
    if (how == END) end();
    return 1;
}

static long failed(int error) {
    *__errno_location() = error;
    return -1;
}

/* The path by which a file was opened, or the name of a standard stream. */
static const char *path_of(int file) {
    static const char *const streams[] = {"stdin", "stdout", "stderr"};
    if (file < 0 || file >= 64) return "";
    return file < 3 && !*paths[file] ? streams[file] : paths[file];
}

static int opened(int file, const char *path) {
    if (file >= 0 && file < 64) word(path, paths[file], sizeof paths[file]);
    return file;
}

void *malloc(size length) { return is_met("growth", "") ? 0 : __libc_malloc(length); }

void *realloc(void *at, size length) { return is_met("growth", "") ? 0 : __libc_realloc(at, length); }

int open(const char *path, int flags, ...) {
    __builtin_va_list more;
    __builtin_va_start(more, flags);
    unsigned mode = __builtin_va_arg(more, unsigned);
    __builtin_va_end(more);
    if (is_met("open", path)) return (int) failed(EIO);
    return opened(NEXT(open)(path, flags, mode), path);
}

int openat(int folder, const char *path, int flags, ...) {
    return is_met("list", path) ? (int) failed(EIO) : opened(NEXT(openat)(folder, path, flags, 0), path);
}

long getdents64(int file, void *to, size length) { return is_met("list", path_of(file)) ? failed(EIO) : NEXT(getdents64)(file, to, length); }

long read(int file, void *to, size length) { return is_met("read", path_of(file)) ? failed(EIO) : NEXT(read)(file, to, length); }

long write(int file, const void *from, size length) {
    if (is_met("write", path_of(file))) {
        if (how == HALF) NEXT(write)(file, from, length / 2), end();
        return failed(ENOSPC);
    }
    tell("FAULT_TRACE", "write", path_of(file), 0);
    return NEXT(write)(file, from, length);
}

long __write(int file, const void *from, size length) { return write(file, from, length); }

int fsync(int file) {
    if (is_met("sync", path_of(file))) return (int) failed(EIO);
    tell("FAULT_TRACE", "sync", path_of(file), 0);
    return NEXT(fsync)(file);
}

int rename(const char *from, const char *to) {
    if (is_met("rename", from)) return (int) failed(EIO);
    tell("FAULT_TRACE", "rename", from, to);
    return NEXT(rename)(from, to);
}

int link(const char *from, const char *to) {
    if (is_met("link", from)) return (int) failed(EIO);
    if (getenv("FAULT_LINKS")) return (int) failed(EPERM);
    tell("FAULT_TRACE", "link", from, to);
    return NEXT(link)(from, to);
}

int unlink(const char *path) {
    if (is_met("unlink", path)) return (int) failed(EIO);
    tell("FAULT_TRACE", "unlink", path, 0);
    return NEXT(unlink)(path);
}

/* Another command replaces a file, unless somebody holds it. */
static void replace(const char *file, const char *by) {
    int held = NEXT(open)(file, READ_WRITE);
    if (held < 0) return;
    if (!NEXT(flock)(held, HOLD_AT_ONCE)) NEXT(rename)(by, file);
    NEXT(close)(held);
}

/* What others do before the next look. */
static void others(void) {
    static size looks;
    char file[256], by[256], number[24];
    const char *asked = getenv("FAULT_OTHERS");
    looks++;
    if (!asked) return;
    asked = word(asked, file, sizeof file - 2);
    size length = (size) (word(file, by, sizeof by) - file);
    by[length] = '.', by[length + 2] = 0;
    for (char digit = '1'; *asked; digit++) {
        asked = word(asked, number, sizeof number);
        by[length + 1] = digit;
        if (number_of(number) == looks) replace(file, by);
    }
}

int flock(int file, int wanted) { return is_met("lock", path_of(file)) ? (int) failed(EIO) : NEXT(flock)(file, wanted); }

int fchmod(int file, unsigned mode) { return is_met("mode", path_of(file)) ? (int) failed(EIO) : NEXT(fchmod)(file, mode); }

int statx(int folder, const char *path, int flags, unsigned wanted, struct statx *to) {
    others();
    return is_met("look", path) ? (int) failed(EIO) : NEXT(statx)(folder, path, flags, wanted, to);
}

long readlink(const char *path, char *to, size length) { return is_met("look", path) ? failed(EIO) : NEXT(readlink)(path, to, length); }
