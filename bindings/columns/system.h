/* The little of the C library's declarations that the program needs, for Linux on x86-64: the kit's compiler comes with
 * no headers. The layouts are those of the GNU C library 2.34 and later. */
#ifndef COLUMNS_SYSTEM_H
#define COLUMNS_SYSTEM_H

#include <stddef.h>
#include <stdint.h>

typedef _Bool bool;
#define true 1
#define false 0
#ifndef SIZE_MAX
#define SIZE_MAX ((size_t)-1)
#define UINT64_MAX ((uint64_t)-1)
#endif

/* ---- errors */

int *__errno_location(void);
#define errno (*__errno_location())
const char *strerrordesc_np(int error);

enum {
    ENOENT = 2,
    EINTR = 4,
    EBADF = 9,
    EAGAIN = 11,
    ENOMEM = 12,
    EACCES = 13,
    EEXIST = 17,
    EINVAL = 22,
    ENOSYS = 38,
    EOPNOTSUPP = 95
};

/* ---- memory and texts */

void *calloc(size_t count, size_t each);
void *realloc(void *old, size_t size);
void free(void *old);
void qsort(void *list, size_t count, size_t each, int (*order)(const void *left, const void *right));
void *memcpy(void *to, const void *from, size_t count);
void *memmove(void *to, const void *from, size_t count);
void *memchr(const void *from, int byte, size_t count);
void *memrchr(const void *from, int byte, size_t count);
size_t strlen(const char *text);
int strcmp(const char *left, const char *right);
int strncmp(const char *left, const char *right, size_t count);
char *strrchr(const char *text, int byte);

/* ---- files */

struct timespec {
    long tv_sec;
    long tv_nsec;
};

struct stat {
    uint64_t st_dev;
    uint64_t st_ino;
    uint64_t st_nlink;
    uint32_t st_mode;
    uint32_t st_uid;
    uint32_t st_gid;
    uint32_t padding;
    uint64_t st_rdev;
    long st_size;
    long st_blksize;
    long st_blocks;
    struct timespec st_atim;
    struct timespec st_mtim;
    struct timespec st_ctim;
    long reserved[3];
};
_Static_assert(sizeof(struct stat) == 144, "the layout of struct stat is another");

enum { S_IFMT = 0170000, S_IFIFO = 0010000, S_IFDIR = 0040000, S_IFREG = 0100000, S_IFLNK = 0120000 };
enum {
    O_RDONLY = 0,
    O_WRONLY = 1,
    O_RDWR = 2,
    O_CREAT = 0100,
    O_EXCL = 0200,
    O_NOCTTY = 0400,
    O_NONBLOCK = 04000,
    O_DIRECTORY = 0200000,
    O_NOFOLLOW = 0400000,
    O_CLOEXEC = 02000000,
    O_TMPFILE = 020200000
};
enum { AT_FDCWD = -100, AT_SYMLINK_NOFOLLOW = 0x100 };
enum { F_GETFD = 1, LOCK_EX = 2, LOCK_NB = 4, RENAME_NOREPLACE = 1 };

int open(const char *name, int how, ...);
int openat(int folder, const char *name, int how, ...);
int close(int fd);
long read(int fd, void *bytes, size_t count);
long pread(int fd, void *bytes, size_t count, long at);
long write(int fd, const void *bytes, size_t count);
int fcntl(int fd, int what, ...);
int flock(int fd, int how);
int fstat(int fd, struct stat *to);
int fstatat(int folder, const char *name, struct stat *to, int how);
int fchmod(int fd, unsigned mode);
int fchown(int fd, unsigned owner, unsigned group);
unsigned umask(unsigned mask);
int fsync(int fd);
int linkat(int old_folder, const char *old, int new_folder, const char *new_name, int how);
int renameat(int old_folder, const char *old, int new_folder, const char *new_name);
int renameat2(int old_folder, const char *old, int new_folder, const char *new_name, unsigned how);
int unlinkat(int folder, const char *name, int how);
long readlinkat(int folder, const char *name, char *to, size_t size);
long flistxattr(int fd, char *to, size_t size);
int isatty(int fd);

struct pollfd {
    int fd;
    short events;
    short revents;
};
enum { POLLIN = 1, POLLOUT = 4 };
int poll(struct pollfd *of, unsigned long count, int milliseconds);

/* ---- signals, time and the end */

typedef struct {
    unsigned long bits[16];
} sigset_t;

struct sigaction {
    void (*sa_handler)(int);
    sigset_t sa_mask;
    int sa_flags;
    void (*sa_restorer)(void);
};
_Static_assert(sizeof(struct sigaction) == 152, "the layout of struct sigaction is another");

#define SIG_DFL ((void (*)(int))0)
#define SIG_IGN ((void (*)(int))1)
enum {
    SIGHUP = 1,
    SIGINT = 2,
    SIGQUIT = 3,
    SIGUSR1 = 10,
    SIGUSR2 = 12,
    SIGPIPE = 13,
    SIGALRM = 14,
    SIGTERM = 15,
    SIGSTKFLT = 16,
    SIGXCPU = 24,
    SIGXFSZ = 25,
    SIGVTALRM = 26,
    SIGPROF = 27,
    SIGIO = 29,
    SIGPWR = 30,
    SIGRTMIN = 34,
    SIGRTMAX = 64
};
enum { SIG_BLOCK = 0, SIG_UNBLOCK = 1, SIG_SETMASK = 2 };

int sigaction(int number, const struct sigaction *to, struct sigaction *was);
int sigemptyset(sigset_t *set);
int sigaddset(sigset_t *set, int number);
int pthread_sigmask(int how, const sigset_t *set, sigset_t *was);
int raise(int number);
int clock_gettime(int which, struct timespec *to);
int nanosleep(const struct timespec *how_long, struct timespec *left);
enum { CLOCK_MONOTONIC = 1 };
void _exit(int status) __attribute__((noreturn));

/* ---- threads */

typedef unsigned long pthread_t;
typedef union {
    char bytes[40];
    long aligned;
} pthread_mutex_t;
typedef union {
    char bytes[48];
    long long aligned;
} pthread_cond_t;
typedef union {
    char bytes[56];
    long aligned;
} pthread_attr_t;

int pthread_create(pthread_t *thread, const pthread_attr_t *how, void *(*from)(void *), void *with);
int pthread_join(pthread_t thread, void **result);
int pthread_attr_init(pthread_attr_t *how);
int pthread_attr_setstacksize(pthread_attr_t *how, size_t size);
int pthread_mutex_init(pthread_mutex_t *lock, const void *how);
int pthread_mutex_lock(pthread_mutex_t *lock);
int pthread_mutex_unlock(pthread_mutex_t *lock);
int pthread_cond_init(pthread_cond_t *cond, const void *how);
int pthread_cond_wait(pthread_cond_t *cond, pthread_mutex_t *lock);
int pthread_cond_broadcast(pthread_cond_t *cond);

#endif
