/* host/archive.h: moves an archive: each job sheet of a folder to the other form, under the same name in another folder.
 * A line on standard error says how each file ended, and the counts go to standard output. Nothing that is there is ever
 * replaced, and nothing is half-written, so that a run that was cut off can be run again. Neither a refused sheet nor a
 * file that fails ends the run.
 */
#ifndef HOST_ARCHIVE_H
#define HOST_ARCHIVE_H

#include <dirent.h>
#include <limits.h>

#include "save.h"
#include "words.h"

/* A path that is cut off has one byte more than any that can be opened. */
#define PATH_ROOM (PATH_MAX + 1)
/* A code is a byte. */
#define CODES 256

/* How files ended: moved, there already with the same bytes, refused with each code, or failed. */
struct counts {
    size_t moved, there, refused[CODES], failed;
};

/* The folder of the sheets and that of the moved ones, the library's call, and the files' names in their order. */
struct archive {
    const char *from, *to;
    uint64_t (*move)(const uint8_t *, size_t, uint8_t *, size_t);
    struct dirent **names;
    int files;
};

static inline const char *join(char *path, const char *folder, const char *name)
{
    snprintf(path, PATH_ROOM, "%s/%s", folder, name);
    return path;
}

static inline int is_shown(const struct dirent *entry) { return entry->d_name[0] != '.'; }

static inline int by_name(const struct dirent **left, const struct dirent **right)
{
    return strcmp((*left)->d_name, (*right)->d_name);
}

/* Whether it is a file, or a link that leads to one. What can't be looked at counts as one, so that its failure is told. */
static inline int is_file(const char *path)
{
    struct stat found;
    return stat(path, &found) != 0 || S_ISREG(found.st_mode);
}

/* Lists the files. Gives 0, once it has said why, where the folder can't be read. */
static inline int list_files(struct archive *archive)
{
    char path[PATH_ROOM];
    int found = scandir(archive->from, &archive->names, is_shown, by_name);
    if (found < 0)
        fprintf(stderr, "ormsvelg: cannot read %s: %s\n", archive->from, strerror(errno));
    for (int i = 0; i < found; i++) {
        if (is_file(join(path, archive->from, archive->names[i]->d_name)))
            archive->names[archive->files++] = archive->names[i];
        else
            free(archive->names[i]);
    }
    return found >= 0;
}

static inline void forget_files(struct archive *archive)
{
    while (archive->files > 0)
        free(archive->names[--archive->files]);
    free(archive->names);
}

/* Makes a folder that is not there. Gives 0, once it has said why, where that fails. */
static inline int make_folder(const char *path)
{
    struct stat found;
    if ((stat(path, &found) == 0 && S_ISDIR(found.st_mode)) || mkdir(path, 0777) == 0)
        return 1;
    fprintf(stderr, "ormsvelg: cannot make folder %s: %s\n", path, strerror(errno));
    return 0;
}

/* Ends the line of a file, and counts it. */
static inline void ends(size_t *count, const char *how, const char *why)
{
    fprintf(stderr, "%s%s\n", how, why);
    ++*count;
}

/* Whether what stands under a name has exactly these bytes. Only a file is opened: a pipe would keep the run waiting. */
static inline int stands(const char *path, const struct sheet *sheet)
{
    static struct sheet found;
    return is_file(path) && fetch(path, found.bytes, sizeof found.bytes, &found.length) == 0
        && found.length == sheet->length && memcmp(found.bytes, sheet->bytes, sheet->length) == 0;
}

static inline void put_moved(const char *path, const struct sheet *moved, struct counts *counts)
{
    if (add(path, moved->bytes, moved->length))
        ends(&counts->moved, "moved", "");
    else if (errno != EEXIST)
        ends(&counts->failed, "cannot write: ", strerror(errno));
    else if (stands(path, moved))
        ends(&counts->there, "there already", "");
    else
        ends(&counts->failed, "another file stands there", "");
}

static inline void move_file(const struct archive *archive, const char *name, struct counts *counts)
{
    static struct sheet job, moved;
    char path[PATH_ROOM];
    int why = fetch(join(path, archive->from, name), job.bytes, sizeof job.bytes, &job.length);
    if (why != 0) {
        ends(&counts->failed, "cannot read: ", strerror(why));
        return;
    }
    uint64_t outcome = archive->move(job.bytes, job.length, moved.bytes, sizeof moved.bytes);
    if (ormsvelg_code(outcome) != ORMSVELG_ACCEPTED) {
        show_refused(stderr, outcome);
        counts->refused[ormsvelg_code(outcome)]++;
        return;
    }
    moved.length = ormsvelg_written(outcome);
    put_moved(join(path, archive->to, name), &moved, counts);
}

/* Says how many files ended in each way, and gives the exit status. */
static inline int tell_counts(const struct counts *counts)
{
    int status = 0;
    printf("moved %zu\n", counts->moved);
    if (counts->there > 0)
        printf("there %zu\n", counts->there);
    for (unsigned code = 0; code < CODES; code++) {
        if (counts->refused[code] == 0)
            continue;
        printf("refused %u %zu\n", code, counts->refused[code]);
        status = 1;
    }
    if (counts->failed == 0)
        return status;
    printf("failed %zu\n", counts->failed);
    return NO_SHEET;
}

/* Moves the sheets of one folder to another, and gives the exit status. */
static inline int move_archive(struct archive *archive)
{
    static struct counts counts;
    if (!list_files(archive))
        return NO_SHEET;
    int made = make_folder(archive->to);
    for (int i = 0; made && i < archive->files; i++) {
        fprintf(stderr, "%d/%d %s: ", i + 1, archive->files, archive->names[i]->d_name);
        move_file(archive, archive->names[i]->d_name, &counts);
    }
    forget_files(archive);
    return made ? tell_counts(&counts) : NO_SHEET;
}

#endif
