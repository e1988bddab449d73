/* host/save.h: puts bytes under a name, all of them or none. They go to a new file beside the target, to the disk, and only
 * then under the target's name; a failure removes the new file and leaves the target as it was. `save` takes the place of
 * a file that was there, `add` never does.
 * A device or a pipe has nothing to keep, and `save` writes to it as it stands.
 */
#ifndef HOST_SAVE_H
#define HOST_SAVE_H

#include <errno.h>
#include <fcntl.h>
#include <signal.h>
#include <stdint.h>
#include <stdio.h>
#include <stdlib.h>
#include <string.h>
#include <sys/stat.h>
#include <time.h>
#include <unistd.h>

/* Each of these gives 0 and leaves the reason in errno where it fails. A limit on a file's size is a failure like a full
 * disk. */
static inline int write_all(int file, const uint8_t *bytes, size_t length)
{
    signal(SIGXFSZ, SIG_IGN);
    while (length > 0) {
        ssize_t done = write(file, bytes, length);
        if (done < 0 && errno == EINTR)
            continue;
        if (done < 0)
            return 0;
        bytes += done;
        length -= (size_t)done;
    }
    return 1;
}

/* Closes the file whatever came before. The first failure keeps its reason. */
static inline int closed(int file, int so_far)
{
    int why = errno;
    if (close(file) != 0 && so_far)
        return 0;
    errno = why;
    return so_far;
}

static inline int write_through(const char *path, const uint8_t *bytes, size_t length)
{
    int file = open(path, O_WRONLY);
    return file >= 0 && closed(file, write_all(file, bytes, length));
}

/* A name for the new file, in the target's folder. One that a run left when it was cut off has another time. */
static inline char *name_beside(const char *path)
{
    const char *slash = strrchr(path, '/');
    int folder = slash == NULL ? 0 : (int)(slash - path) + 1;
    size_t room = (size_t)folder + 64;
    char *name = malloc(room);
    if (name != NULL)
        snprintf(name, room, "%.*s.ormsvelg-%ld-%lld", folder, path, (long)getpid(), (long long)time(NULL));
    return name;
}

/* A file that was there keeps its mode. */
static inline int write_new(const char *name, const struct stat *was, const uint8_t *bytes, size_t length)
{
    int file = open(name, O_WRONLY | O_CREAT | O_EXCL, 0666);
    if (file < 0)
        return 0;
    int done = was == NULL || fchmod(file, was->st_mode & 0777) == 0;
    done = done && write_all(file, bytes, length) && fsync(file) == 0;
    if (closed(file, done))
        return 1;
    int why = errno;
    unlink(name);
    errno = why;
    return 0;
}

/* Puts the bytes in a new file and lets `settle` bring it from its name to the target's, as rename does. Signals wait until
 * the new file is under its name or gone. */
static inline int put_beside(const char *path, const struct stat *was, const uint8_t *bytes, size_t length,
                             int (*settle)(const char *, const char *))
{
    sigset_t all, before;
    char *name = name_beside(path);
    if (name == NULL)
        return 0;
    sigfillset(&all);
    sigprocmask(SIG_BLOCK, &all, &before);
    int done = write_new(name, was, bytes, length);
    if (done && settle(name, path) != 0) {
        int why = errno;
        unlink(name);
        errno = why;
        done = 0;
    }
    sigprocmask(SIG_SETMASK, &before, NULL);
    free(name);
    return done;
}

/* A link stays a link: the file that it leads to is replaced. A file that may not be written is not replaced either. */
static inline int replace_there(const char *path, const struct stat *was, const uint8_t *bytes, size_t length)
{
    if (access(path, W_OK) != 0)
        return 0;
    char *whole = realpath(path, NULL);
    if (whole == NULL)
        return 0;
    int done = put_beside(whole, was, bytes, length, rename);
    free(whole);
    return done;
}

static inline int put(const char *path, const uint8_t *bytes, size_t length)
{
    struct stat was;
    if (stat(path, &was) != 0)
        return errno == ENOENT && path[0] != 0 && put_beside(path, NULL, bytes, length, rename);
    if (S_ISREG(was.st_mode))
        return replace_there(path, &was, bytes, length);
    return write_through(path, bytes, length);
}

static inline int save(const char *path, const uint8_t *bytes, size_t length)
{
    if (put(path, bytes, length))
        return 1;
    fprintf(stderr, "ormsvelg: cannot write %s: %s\n", path, strerror(errno));
    return 0;
}

/* Whether nothing has the name, not even a link that leads nowhere. */
static inline int is_free(const char *path)
{
    struct stat there;
    if (lstat(path, &there) != 0)
        return 1;
    errno = EEXIST;
    return 0;
}

/* As rename, but to a name that nothing has: a link never takes another file's place. A file system may have no links, and
 * tells it in many ways; there the name is looked for first, and only what takes it in between is replaced. */
static inline int rename_to_free(const char *from, const char *to)
{
    if (link(from, to) == 0)
        return unlink(from);
    if (errno == EEXIST || !is_free(to))
        return -1;
    return rename(from, to);
}

/* Puts bytes under a name that nothing has. Where something has it, that stays, and the reason is EEXIST. */
static inline int add(const char *path, const uint8_t *bytes, size_t length)
{
    return is_free(path) && put_beside(path, NULL, bytes, length, rename_to_free);
}

#endif
