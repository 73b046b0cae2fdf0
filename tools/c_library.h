/* The part of the C library that the C files next to it use, on Linux for x86-64, since the toolchain's compiler has no headers. */
typedef unsigned long size_t;
typedef long ssize_t;
typedef long off_t;
typedef long off64_t;
typedef unsigned mode_t;
typedef __builtin_va_list va_list;
typedef union {
    char bytes[40];
    long aligned;
} pthread_mutex_t;

struct timespec {
    long tv_sec, tv_nsec;
};

struct stat {
    unsigned long st_dev, st_ino, st_nlink;
    unsigned st_mode, st_uid, st_gid, padding;
    unsigned long st_rdev;
    long st_size, st_blksize, st_blocks;
    struct timespec st_atim, st_mtim, st_ctim;
    long reserved[3];
};

#define va_start(list, last) __builtin_va_start(list, last)
#define va_arg(list, type) __builtin_va_arg(list, type)
#define va_end(list) __builtin_va_end(list)
#define NULL ((void *)0)
#define RTLD_NEXT ((void *)-1L)
#define MAP_FAILED ((void *)-1L)
#define errno (*__errno_location())
#define S_ISREG(mode) (((mode) & 0170000) == 0100000)
#define PTHREAD_MUTEX_INITIALIZER {{0}}
enum { EIO = 5, ENOMEM = 12, ENOSPC = 28, PATH_MAX = 4096, PROT_READ = 1, PROT_WRITE = 2, MAP_SHARED = 1 };
enum { O_RDWR = 2, O_CREAT = 0100, O_CLOEXEC = 02000000, O_TMPFILE = 020200000, SYS_clock_gettime = 228 };

int *__errno_location(void);
_Noreturn void abort(void);
long atol(const char *);
long long atoll(const char *);
char *getenv(const char *);
int snprintf(char *, size_t, const char *, ...);
size_t strlen(const char *);
int strcmp(const char *, const char *);
int strncmp(const char *, const char *, size_t);
void *dlsym(void *, const char *);
void *mmap(void *, size_t, int, int, int, off_t);
int open(const char *, int, ...);
int close(int);
int fstat(int, struct stat *);
char *getcwd(char *, size_t);
char *strrchr(const char *, int);
int rename(const char *, const char *);
ssize_t readlink(const char *, char *, size_t);
int nanosleep(const struct timespec *, struct timespec *);
int pthread_mutex_lock(pthread_mutex_t *);
int pthread_mutex_unlock(pthread_mutex_t *);
long syscall(long, ...);
