/* Loaded before the server, it stands between the server and the files under a folder: it tells what was confirmed of each
 * file, lets a call fail, and lets a sync take longer.
 *
 * DISK_FOLDER   the path of the folder, without links; only files in it are looked at, and it
 * DISK_NOTES    a file of at least NOTES_SIZE bytes, all zero at the start, in which it counts and notes
 * DISK_CALL     the kind of the call that fails: write, sync, open, lock, truncate; and
 * DISK_NUMBER   which one of them, from 1 on
 * DISK_FAULT    how it fails: ENOSPC or EIO; of a write also TORN, where half of it is written first, and SHORT, where half of
 *               it is written and told as all that was
 * DISK_DELAY    microseconds that each sync takes longer; with the fault SLOW the sync of this number alone, which does not fail
 *
 * The notes are five counts of calls, one a kind, and then for each file its name (120 bytes) and its length when the last
 * sync of it that succeeded began (8 bytes); of a folder 1, or 0 once a file in it got another name and no sync came after that. The
 * folder itself has the name ".". */
#include "c_library.h"

enum kind { WRITE, SYNC, OPEN, LOCK, TRUNCATE, KINDS };
enum { FILES = 32, NOTES_SIZE = 8 * KINDS + 128 * FILES };

struct notes {
    long calls[KINDS];
    struct {
        char name[120];
        long confirmed;
    } files[FILES];
};

static const char *const names[KINDS] = {"write", "sync", "open", "lock", "truncate"};
static struct notes *notes;
static char folder[PATH_MAX];
static enum kind failing = KINDS;
static long failing_number, delay;
static const char *fault = "";
static pthread_mutex_t lock = PTHREAD_MUTEX_INITIALIZER;

#define REAL(name) __typeof__(&name) real = (__typeof__(&name))dlsym(RTLD_NEXT, #name)

__attribute__((constructor)) static void begin(void) {
    const char *call = getenv("DISK_CALL"), *number = getenv("DISK_NUMBER"), *path = getenv("DISK_NOTES");
    if (getenv("DISK_DELAY")) delay = atol(getenv("DISK_DELAY"));
    if (getenv("DISK_FAULT")) fault = getenv("DISK_FAULT");
    for (int kind = 0; call && number && kind < KINDS; kind++)
        if (!strcmp(call, names[kind])) failing = kind, failing_number = atol(number);
    if (!path || !getenv("DISK_FOLDER")) return;
    snprintf(folder, sizeof folder, "%s", getenv("DISK_FOLDER"));
    int fd = open(path, O_RDWR | O_CLOEXEC);
    void *mapped = mmap(NULL, NOTES_SIZE, PROT_READ | PROT_WRITE, MAP_SHARED, fd, 0);
    close(fd);
    if (mapped != MAP_FAILED) notes = mapped;
}

/* The name in the folder of a path, the folder itself being ".", or NULL where it is not in it. */
static const char *name_in(const char *path) {
    size_t length = strlen(folder);
    if (!notes || strncmp(path, folder, length)) return NULL;
    return path[length] == '/' ? path + length + 1 : path[length] ? NULL : ".";
}

static const char *name_of(int fd, char *path) {
    char link[64];
    snprintf(link, sizeof link, "/proc/self/fd/%d", fd);
    ssize_t length = notes ? readlink(link, path, PATH_MAX - 1) : -1;
    if (length < 0) return NULL;
    path[length] = 0;
    return name_in(path);
}

/* Counts a call, and tells whether it is the one that fails. */
static int fails(enum kind kind) {
    long number = __atomic_add_fetch(&notes->calls[kind], 1, __ATOMIC_SEQ_CST);
    if (kind != failing || number != failing_number) return 0;
    errno = strcmp(fault, "EIO") ? ENOSPC : EIO;
    return 1;
}

static void note(const char *name, long confirmed) {
    pthread_mutex_lock(&lock);
    for (int i = 0; i < FILES; i++) {
        if (!*notes->files[i].name) snprintf(notes->files[i].name, sizeof notes->files[i].name, "%s", name);
        if (strcmp(notes->files[i].name, name)) continue;
        notes->files[i].confirmed = confirmed;
        break;
    }
    pthread_mutex_unlock(&lock);
}

ssize_t write(int fd, const void *bytes, size_t size) {
    REAL(write);
    char path[PATH_MAX];
    if (!name_of(fd, path) || !fails(WRITE)) return real(fd, bytes, size);
    int reason = errno;
    if (!strcmp(fault, "SHORT")) return real(fd, bytes, (size + 1) / 2);
    if (!strcmp(fault, "TORN")) (void)!real(fd, bytes, size / 2);
    errno = reason;
    return -1;
}

static void be_late(void) {
    if (delay) nanosleep(&(struct timespec){delay / 1000000, delay % 1000000 * 1000}, NULL);
}

static int synced(int fd, int (*real)(int)) {
    char path[PATH_MAX];
    struct stat before = {0};
    const char *name = name_of(fd, path);
    int slow = !strcmp(fault, "SLOW");
    if (!slow) be_late();
    if (!name) return real(fd);
    if (fails(SYNC)) {
        if (!slow) return -1;
        be_late();
    }
    fstat(fd, &before);
    int failed = real(fd);
    if (!failed) note(name, S_ISREG(before.st_mode) ? before.st_size : 1);
    return failed;
}

int fdatasync(int fd) {
    REAL(fdatasync);
    return synced(fd, real);
}

int fsync(int fd) {
    REAL(fsync);
    return synced(fd, real);
}

/* The path from the root. */
static void make_whole(char *whole, const char *path) {
    size_t here = *path != '/' && getcwd(whole, PATH_MAX) ? strlen(whole) : 0;
    snprintf(whole + here, PATH_MAX - here, here ? "/%s" : "%s", path);
}

static int opens(const char *path) {
    char whole[PATH_MAX];
    if (!notes || !path) return 1;
    make_whole(whole, path);
    return !name_in(whole) || !fails(OPEN);
}

int rename(const char *from, const char *to) {
    REAL(rename);
    char whole[PATH_MAX], *last;
    if (notes && to) {
        make_whole(whole, to);
        if ((last = strrchr(whole, '/'))) *last = 0;
        const char *name = name_in(whole);
        if (name) note(name, 0);
    }
    return real(from, to);
}

static mode_t mode_of(int flags, va_list more) { return flags & (O_CREAT | O_TMPFILE) ? va_arg(more, mode_t) : 0; }

int open(const char *path, int flags, ...) {
    REAL(open);
    va_list more;
    va_start(more, flags);
    mode_t mode = mode_of(flags, more);
    va_end(more);
    return opens(path) ? real(path, flags, mode) : -1;
}

int open64(const char *path, int flags, ...) {
    REAL(open64);
    va_list more;
    va_start(more, flags);
    mode_t mode = mode_of(flags, more);
    va_end(more);
    return opens(path) ? real(path, flags, mode) : -1;
}

int openat(int at, const char *path, int flags, ...) {
    REAL(openat);
    va_list more;
    va_start(more, flags);
    mode_t mode = mode_of(flags, more);
    va_end(more);
    return opens(path) ? real(at, path, flags, mode) : -1;
}

int flock(int fd, int operation) {
    REAL(flock);
    char path[PATH_MAX];
    return name_of(fd, path) && fails(LOCK) ? -1 : real(fd, operation);
}

int ftruncate(int fd, off_t length) {
    REAL(ftruncate);
    char path[PATH_MAX];
    return name_of(fd, path) && fails(TRUNCATE) ? -1 : real(fd, length);
}

int ftruncate64(int fd, off64_t length) {
    REAL(ftruncate64);
    char path[PATH_MAX];
    return name_of(fd, path) && fails(TRUNCATE) ? -1 : real(fd, length);
}
