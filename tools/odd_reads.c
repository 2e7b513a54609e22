/* Calls that go as a machine's calls rarely do, for a program that is started with this library before the C library: a reader that hands
 * out few bytes at a time, one that is interrupted, one that fails half-way, a file that changes while it is read, and a disk that is slow or fails. What is
 * to happen stands in the environment, as numbers in decimal; a name that is not there plays no part:
 *
 *     ODD_MOST    a read gives at most so many bytes
 *     ODD_AGAIN   before each read so many are interrupted (EINTR)
 *     ODD_FAIL    from the read of this number on, counted from 1, every read fails (EIO)
 *     ODD_FROM    from the read of this number on, the file ODD_SIDE has the bytes of the file ODD_FILE
 *     ODD_SIDE    1 is the file that is read first, 2 the other
 *     ODD_LOG     a file to which each read adds a line `AT COUNT`
 *     ODD_SLOW    a read waits so many milliseconds before
 *     ODD_SYNC    so does a sync of a file, and with ODD_SYNC_FOLDER that of a folder
 *     ODD_SYNC_FAIL    a sync of a file fails (EIO)
 *     ODD_RENAME       the call that renames without replacing is none that the file system has (EINVAL)
 *
 * Interrupted reads are not counted. tools/columns_test and tools/differential_files compile it with the kit's clang, and it needs no header. */
typedef long number;

char *getenv(const char *name);
int *__errno_location(void);
int open(const char *name, int how, ...);
int close(int file);
number write(int file, const void *bytes, unsigned long n);
int nanosleep(const void *how_long, void *left);

enum { INTERRUPTED = 4, FAILED = 5, NO_CALL = 22 };

static number asked(const char *name)
{
    const char *text = getenv(name);
    number n = 0;
    for (; text && *text >= '0' && *text <= '9'; text++)
        n = n * 10 + (*text - '0');
    return n;
}

/* The system's own calls, which those of the C library make too. */
static number call(number which, number a, number b, number c, number d, number e)
{
    number got;
    register number fourth __asm__("r10") = d;
    register number fifth __asm__("r8") = e;
    __asm__ volatile("syscall" : "=a"(got) : "a"(which), "D"(a), "S"(b), "d"(c), "r"(fourth), "r"(fifth) : "rcx", "r11", "memory");
    if (got >= 0)
        return got;
    *__errno_location() = (int)-got;
    return -1;
}

static number really(int file, void *part, number n, number at)
{
    return call(17, file, (number)part, n, at, 0);
}

static void wait_for(number milliseconds)
{
    number how_long[2] = {milliseconds / 1000, milliseconds % 1000 * 1000000};
    if (milliseconds)
        nanosleep(how_long, 0);
}

/* A line `AT COUNT` at the end of the log. */
static void note(number at, number n)
{
    enum { TO_APPEND = 02001, ROOM = 64 };
    char line[ROOM];
    int i = ROOM, file = open(getenv("ODD_LOG"), TO_APPEND);
    number two[] = {n, at};
    for (int k = 0; k < 2; k++) {
        line[--i] = k ? ' ' : '\n';
        do
            line[--i] = (char)('0' + two[k] % 10);
        while (two[k] /= 10);
    }
    write(file, line + i, (unsigned long)(ROOM - i));
    close(file);
}

static number refuse(int why)
{
    *__errno_location() = why;
    return -1;
}

number pread(int file, void *part, number n, number at)
{
    static number reads, interrupted;
    static int first = -1, other = -1;
    number most = asked("ODD_MOST"), fail = asked("ODD_FAIL"), from = asked("ODD_FROM");
    if (interrupted < asked("ODD_AGAIN")) {
        interrupted++;
        return refuse(INTERRUPTED);
    }
    interrupted = 0;
    reads++;
    wait_for(asked("ODD_SLOW"));
    if (getenv("ODD_LOG"))
        note(at, n);
    if (first < 0)
        first = file;
    if (fail && reads >= fail)
        return refuse(FAILED);
    if (from && reads >= from && (file == first ? 1 : 2) == asked("ODD_SIDE")) {
        if (other < 0)
            other = open(getenv("ODD_FILE"), 0);
        file = other;
    }
    if (most && n > most)
        n = most;
    return really(file, part, n, at);
}

int fsync(int file)
{
    int is_folder = call(0, file, 0, 0, 0, 0) < 0;
    wait_for(asked(is_folder ? "ODD_SYNC_FOLDER" : "ODD_SYNC"));
    if (!is_folder && asked("ODD_SYNC_FAIL"))
        return (int)refuse(FAILED);
    return (int)call(74, file, 0, 0, 0, 0);
}

int renameat2(int from_folder, const char *from, int to_folder, const char *to, unsigned how)
{
    if (asked("ODD_RENAME"))
        return (int)refuse(NO_CALL);
    return (int)call(316, from_folder, (number)from, to_folder, (number)to, how);
}
