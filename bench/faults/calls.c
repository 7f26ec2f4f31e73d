/* Calls of the system as a program makes them on its files: told, failing once, or doing nothing. It stands before the C library, and is compiled
   without headers.

   CALLS_TOLD=PATH    each write, sync and rename is told there, a line each: its name, its descriptor and how many bytes were written
   CALLS_FAIL=NAME    the call of that name that CALLS_NUMBER says fails, with the error that CALLS_ERROR says, or where that is 0 the program is
                      killed there; a write to one of the three standard files isn't counted
   CALLS_PART=1       the write before the one that fails writes half of its bytes
   CALLS_SKIP=NAME    a sync of that name does nothing, and isn't told */
extern char *getenv(const char *);
extern long syscall(long, ...);
extern int *__errno_location(void);

enum { WRITE = 1, OPEN = 2, CLOSE = 3, GETPID = 39, KILL = 62, FCNTL = 72, FLOCK = 73, FSYNC = 74, FDATASYNC = 75, FTRUNCATE = 77, RENAME = 82, LINK = 86, UNLINK = 87 };
enum { KILLED = 9 };
/* O_WRONLY, O_CREAT, O_APPEND and O_CLOEXEC; F_DUPFD_CLOEXEC; and a descriptor far from those of the program. */
enum { TOLD_FLAGS = 02002101, DUPLICATE = 1030, FAR = 200 };

static int counted, told = -1;

static int is_same(const char *first, const char *second) {
    while (*first && *first == *second) first++, second++;
    return *first == *second;
}

static int is_asked(const char *variable, const char *name) {
    const char *value = getenv(variable);
    return value && is_same(value, name);
}

static int number_in(const char *variable) {
    const char *text = getenv(variable);
    int number = 0;
    for (; text && *text >= '0' && *text <= '9'; text++) number = number * 10 + (*text - '0');
    return number;
}

static char *put(char *to, const char *text) {
    while (*text) *to++ = *text++;
    return to;
}

static char *put_number(char *to, long number) {
    char digits[24];
    int count = 0;
    do digits[count++] = '0' + number % 10; while (number /= 10);
    while (count) *to++ = digits[--count];
    return to;
}

static void tell(const char *name, int file, long bytes) {
    const char *path = getenv("CALLS_TOLD");
    char line[96], *to = line;
    if (!path) return;
    if (told < 0) {
        int near = syscall(OPEN, path, TOLD_FLAGS, 0600);
        told = syscall(FCNTL, near, DUPLICATE, FAR);
        syscall(CLOSE, near);
    }
    to = put(put_number(put(put_number(put(put(to, name), " "), file), " "), bytes), "\n");
    syscall(WRITE, told, line, to - line);
}

static int fails(const char *name) {
    if (!is_asked("CALLS_FAIL", name) || ++counted != number_in("CALLS_NUMBER")) return 0;
    if (!number_in("CALLS_ERROR")) syscall(KILL, syscall(GETPID), KILLED);
    *__errno_location() = number_in("CALLS_ERROR");
    return 1;
}

long write(int file, const void *bytes, unsigned long count) {
    if (file > 2) {
        int is_before = is_asked("CALLS_FAIL", "write") && getenv("CALLS_PART") && counted + 2 == number_in("CALLS_NUMBER");
        if (fails("write")) return -1;
        if (is_before) count = (count + 1) / 2;
    }
    long written = syscall(WRITE, file, bytes, count);
    if (written >= 0) tell("write", file, written);
    return written;
}

static int synced(long call, const char *name, int file) {
    if (fails(name)) return -1;
    if (is_asked("CALLS_SKIP", name)) return 0;
    int status = syscall(call, file);
    if (!status) tell("sync", file, 0);
    return status;
}

int fsync(int file) { return synced(FSYNC, "fsync", file); }
int fdatasync(int file) { return synced(FDATASYNC, "fdatasync", file); }

int ftruncate(int file, long length) {
    if (fails("ftruncate")) return -1;
    int status = syscall(FTRUNCATE, file, length);
    if (!status) tell("cut", file, length);
    return status;
}

int flock(int file, int how) { return fails("flock") ? -1 : syscall(FLOCK, file, how); }

int open(const char *path, int flags, ...) {
    __builtin_va_list more;
    __builtin_va_start(more, flags);
    int mode = __builtin_va_arg(more, int);
    __builtin_va_end(more);
    return fails("open") ? -1 : syscall(OPEN, path, flags, mode);
}

int rename(const char *path, const char *name) {
    if (fails("rename")) return -1;
    int status = syscall(RENAME, path, name);
    if (!status) tell("rename", 0, 0);
    return status;
}

int link(const char *path, const char *name) { return fails("link") ? -1 : syscall(LINK, path, name); }
int unlink(const char *path) { return fails("unlink") ? -1 : syscall(UNLINK, path); }
