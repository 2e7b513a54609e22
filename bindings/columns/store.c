/* A new file beside the one that it becomes.
 *
 * The temporary name is the file's own with `.` before it and `.columns-new` behind it. So a run that was ended by
 * force leaves at most one, which the next write to that name removes. While it is written it is locked: one that can
 * be locked is left over. */
#include "store.h"
#include "output.h"
#include "signals.h"

enum { NAME_MOST = 255, LINKS_MOST = 40, PATH_ROOM = 4096 };
static const char suffix[] = ".columns-new";

/* ---- where a name leads */

/* The folder of a path, with its / at the end; empty where there is none. */
static size_t folder_length(const char *path)
{
    const char *slash = strrchr(path, '/');
    return slash == NULL ? 0 : (size_t)(slash - path) + 1;
}

/* Follows the links of the last name of a path; false where they lead in a circle. */
static bool follow_links(struct bytes *path)
{
    char *target = room_for(PATH_ROOM, 1);
    bool good = false;
    for (int i = 0; i < LINKS_MOST && !good; i++) {
        const char *now = bytes_as_text(path);
        long length = readlinkat(AT_FDCWD, now, target, PATH_ROOM);
        if (length < 0 || length == PATH_ROOM) {
            good = true;
        } else {
            path->length = target[0] == '/' ? 0 : folder_length(now);
            bytes_add(path, target, (size_t)length);
        }
    }
    free(target);
    return good;
}

/* A number that stands for a long name. */
static uint64_t hash_of(const char *text)
{
    uint64_t hash = 14695981039346656037u;
    for (; *text != 0; text++)
        hash = (hash ^ (uint8_t)*text) * 1099511628211u;
    return hash;
}

/* A name that would be too long has its own front and a number that stands for all of it. */
static void name_temporary(struct store *store)
{
    size_t most = NAME_MOST - 1 - (sizeof(suffix) - 1), number_room = 21;
    const char *base = bytes_as_text(&store->base);
    bytes_text(&store->temporary, ".");
    if (store->base.length <= most) {
        bytes_text(&store->temporary, base);
    } else {
        bytes_add(&store->temporary, base, most - number_room);
        bytes_text(&store->temporary, ".");
        bytes_number(&store->temporary, hash_of(base));
    }
    bytes_text(&store->temporary, suffix);
    bytes_as_text(&store->temporary);
}

/* Opens the folder of a path, and takes the name behind it. */
static bool open_folder(struct store *store, struct bytes *path, struct result *result)
{
    struct bytes folder;
    const char *whole = bytes_as_text(path);
    size_t length = folder_length(whole);
    bytes_begin(&folder);
    bytes_add(&folder, length == 0 ? "." : whole, length == 0 ? 1 : length);
    bytes_text(&store->base, whole + length);
    store->folder = open(bytes_as_text(&folder), O_RDONLY | O_DIRECTORY | O_CLOEXEC);
    if (store->folder < 0)
        fail_system(result, store->name, "there is no folder for it that can be opened: ", NULL);
    bytes_free(&folder);
    return store->folder >= 0;
}

/* What is there already may be replaced where it is a plain file and -f was said. */
static bool may_be_put(struct store *store, struct result *result)
{
    const char *base = bytes_as_text(&store->base);
    if (base[0] == 0) {
        fail(result, store->name, "is a folder, or no name of a file", NULL);
        return false;
    }
    store->is_there = fstatat(store->folder, base, &store->old, AT_SYMLINK_NOFOLLOW) == 0;
    if (!store->is_there && errno != ENOENT) {
        fail_system(result, store->name, "cannot be the name of a file: ", NULL);
        return false;
    }
    if (!store->is_there)
        return true;
    if ((store->old.st_mode & S_IFMT) == S_IFDIR)
        fail(result, store->name, "is a folder", NULL);
    else if ((store->old.st_mode & S_IFMT) != S_IFREG)
        fail(result, store->name, "is no plain file, and is not replaced", NULL);
    else if (!store->force)
        fail(result, store->name, "is there already; -f replaces it", NULL);
    else
        return true;
    return false;
}

bool store_open(struct store *store, const char *name, bool force, struct result *result)
{
    struct bytes path;
    *store = (struct store){.name = name, .force = force, .folder = -1};
    bytes_begin(&store->base);
    bytes_begin(&store->temporary);
    bytes_begin(&path);
    bytes_text(&path, name);
    bool good = true;
    if (!follow_links(&path)) {
        fail(result, name, "is a link that leads back to itself", NULL);
        good = false;
    }
    good = good && open_folder(store, &path, result) && may_be_put(store, result);
    if (good)
        name_temporary(store);
    bytes_free(&path);
    if (!good)
        store_close(store);
    return good;
}

void store_close(struct store *store)
{
    if (store->folder >= 0)
        close(store->folder);
    store->folder = -1;
    bytes_free(&store->base);
    bytes_free(&store->temporary);
}

/* ---- the temporary file */

static bool is_same_file(int fd, int folder, const char *name)
{
    struct stat open_one, named;
    return fstat(fd, &open_one) == 0 && fstatat(folder, name, &named, AT_SYMLINK_NOFOLLOW) == 0 &&
           open_one.st_ino == named.st_ino && open_one.st_dev == named.st_dev;
}

/* A temporary file that is there and that nobody has locked is left over from a run that was ended by force: it is
 * removed. */
static void remove_left_over(int folder, const char *name)
{
    int fd = openat(folder, name, O_RDWR | O_NOFOLLOW | O_CLOEXEC | O_NONBLOCK);
    if (fd < 0)
        return;
    if (flock(fd, LOCK_EX | LOCK_NB) == 0 && is_same_file(fd, folder, name))
        unlinkat(folder, name, 0);
    close(fd);
}

/* One try at making it. Where another made it, or took it for a left over one before it was locked, errno is EEXIST.
 * Signals are held. */
static int try_temporary(int folder, const char *name)
{
    int fd = openat(folder, name, O_RDWR | O_CREAT | O_EXCL | O_CLOEXEC | O_NOFOLLOW, 0600);
    if (fd < 0)
        return -1;
    if (flock(fd, LOCK_EX | LOCK_NB) == 0 && is_same_file(fd, folder, name)) {
        temporary_is(folder, name);
        return fd;
    }
    close(fd);
    errno = EEXIST;
    return -1;
}

/* Makes it. Another who writes to the same name is waited for, for some seconds. */
static int make_temporary(struct store *store)
{
    enum { TRIES = 500 };
    const struct timespec pause = {0, 10000000};
    const char *name = (const char *)store->temporary.at;
    for (int i = 0; i < TRIES; i++) {
        signals_hold();
        int fd = try_temporary(store->folder, name);
        int why = errno;
        signals_release();
        errno = why;
        if (fd >= 0 || errno != EEXIST)
            return fd;
        remove_left_over(store->folder, name);
        if (i > 0)
            nanosleep(&pause, NULL);
    }
    errno = EEXIST;
    return -1;
}

static void drop_temporary(struct store *store, int fd)
{
    signals_hold();
    temporary_is(-1, NULL);
    unlinkat(store->folder, (const char *)store->temporary.at, 0);
    signals_release();
    close(fd);
}

bool store_write(int fd, const uint8_t *bytes, size_t length)
{
    while (length > 0) {
        long done = write(fd, bytes, length);
        if (done < 0 && errno == EINTR)
            continue;
        if (done <= 0)
            return false;
        bytes += done;
        length -= (size_t)done;
    }
    return true;
}

int store_spool(struct store *store, struct result *result)
{
    int fd = openat(store->folder, ".", O_TMPFILE | O_RDWR | O_CLOEXEC, 0600);
    if (fd >= 0)
        return fd;
    fd = make_temporary(store);
    if (fd < 0) {
        fail_system(result, store->name, "no file can be made beside it: ", NULL);
        return -1;
    }
    /* It loses its name at once, and stays as long as it is open. */
    signals_hold();
    unlinkat(store->folder, (const char *)store->temporary.at, 0);
    temporary_is(-1, NULL);
    signals_release();
    return fd;
}

/* ---- what is kept */

/* What cannot be kept of the old file is said: it is no reason to keep the old numbers. */
static void note(struct store *store, const char *sentence, struct result *result)
{
    bytes_name(&result->err, store->name);
    bytes_text(&result->err, ": ");
    bytes_text(&result->err, sentence);
    bytes_text(&result->err, "\n");
}

/* Whether a list of attributes has one that a person set: their own, or access lists. */
static bool has_attributes(struct store *store)
{
    enum { ROOM = 65536 };
    char *names = room_for(ROOM, 1);
    int fd = openat(store->folder, (const char *)store->base.at, O_RDONLY | O_CLOEXEC | O_NONBLOCK);
    long length = fd < 0 ? 0 : flistxattr(fd, names, ROOM);
    bool has = false;
    for (long at = 0; at < length; at += (long)strlen(names + at) + 1)
        has = has || strncmp(names + at, "user.", 5) == 0 || strncmp(names + at, "system.posix_acl", 16) == 0;
    if (fd >= 0)
        close(fd);
    free(names);
    return has;
}

/* The new file has the owner and the mode of the old one, or the mode that the umask leaves. It has both before a byte
 * is written. */
static bool keep_mode(struct store *store, int fd, struct result *result)
{
    if (!store->is_there) {
        unsigned mask = umask(0);
        umask(mask);
        return fchmod(fd, 0666 & ~mask) == 0;
    }
    struct stat now;
    bool is_other = fstat(fd, &now) == 0 && (now.st_uid != store->old.st_uid || now.st_gid != store->old.st_gid);
    unsigned mode = store->old.st_mode & 07777;
    if (is_other && fchown(fd, store->old.st_uid, store->old.st_gid) != 0) {
        note(store, "another owner or group has the old file, and the new one cannot be given to them: it is yours",
            result);
        mode &= 0777; /* no one gets another's rights by it */
    }
    if (store->old.st_nlink > 1)
        note(store, "the old file has other names (hard links), which keep the old numbers", result);
    if (has_attributes(store))
        note(store, "the old file has attributes or access lists, which are not kept", result);
    return fchmod(fd, mode) == 0;
}

/* ---- the name */

/* Gives the temporary file its name, over nothing that is there unless that was asked for. */
static bool give_name(struct store *store)
{
    const char *from = (const char *)store->temporary.at, *to = (const char *)store->base.at;
    if (store->force)
        return renameat(store->folder, from, store->folder, to) == 0;
    if (renameat2(store->folder, from, store->folder, to, RENAME_NOREPLACE) == 0)
        return true;
    if (errno != EINVAL && errno != ENOSYS && errno != EOPNOTSUPP)
        return false;
    /* A file system that cannot do that in one step gives a second name, which is never one that is taken. */
    if (linkat(store->folder, from, store->folder, to, 0) != 0)
        return false;
    unlinkat(store->folder, from, 0);
    return true;
}

static bool named(struct store *store, struct result *result)
{
    signals_hold();
    if (!give_name(store)) {
        if (errno == EEXIST)
            fail(result, store->name, "was made by another meanwhile, and is there already; -f replaces it", NULL);
        else
            fail_system(result, store->name, "the new file cannot get its name: ", NULL);
        signals_release();
        return false;
    }
    temporary_is(-1, NULL);
    signals_hold_for_good();
    /* A file system whose folders cannot be synced says EINVAL, and has nothing to sync. */
    if (fsync(store->folder) != 0 && errno != EINVAL)
        fail_system(result, store->name, "the new file has its name, but its folder could not be synced: ", NULL);
    return true;
}

bool store_put(struct store *store, const uint8_t *bytes, size_t length, struct result *result)
{
    /* While the input was read, another may have made, replaced or removed what is there. */
    if (!may_be_put(store, result))
        return false;
    int fd = make_temporary(store);
    if (fd < 0) {
        fail_system(result, store->name,
            errno == EEXIST ? "another writes to this name, and has not ended: " : "no file can be made beside it: ",
            NULL);
        return false;
    }
    const char *failed = NULL;
    if (!keep_mode(store, fd, result))
        failed = "the new file cannot have its mode: ";
    else if (!store_write(fd, bytes, length))
        failed = "the new file cannot be written: ";
    else if (fsync(fd) != 0)
        failed = "the new file cannot be synced: ";
    if (failed != NULL)
        fail_system(result, store->name, failed, "; what was there is as it was");
    if (failed != NULL || !named(store, result)) {
        drop_temporary(store, fd);
        return false;
    }
    close(fd);
    return true;
}
