/* host/sheet.h: what the command takes in: a file's bytes, a sheet's numbers, and a table as digits.
 * The name `-` is standard input. A file is never read further than one byte beyond the longest sheet.
 */
#ifndef HOST_SHEET_H
#define HOST_SHEET_H

#include <errno.h>
#include <stdio.h>
#include <string.h>

#include "ormsvelg.h"

/* Exit status: success of the call 0, a refusal 1, and this for a wrong use or a file that fails. */
#define NO_SHEET 2

/* The longest sheet is a job of form two. One byte beyond it decides the outcome of any longer file. */
struct sheet {
    uint8_t bytes[ORMSVELG_LONGEST_JOB_TWO + 1];
    size_t length;
};

static inline int is_standard_input(const char *path) { return strcmp(path, "-") == 0; }

/* Takes an open file's bytes, as many as there is room for. Gives 0 or why it can't be read. */
static inline int take(FILE *file, uint8_t *bytes, size_t room, size_t *length)
{
    errno = 0;
    *length = fread(bytes, 1, room, file);
    if (!ferror(file))
        return 0;
    return errno != 0 ? errno : EIO;
}

/* Takes a named file's bytes. Gives 0 or why it can't be read. */
static inline int fetch(const char *path, uint8_t *bytes, size_t room, size_t *length)
{
    FILE *file = is_standard_input(path) ? stdin : fopen(path, "rb");
    int why = file == NULL ? errno : take(file, bytes, room, length);
    if (file != NULL && file != stdin)
        fclose(file);
    return why;
}

/* Takes a named file's bytes. Gives 0, once it has said why, where the file can't be read. */
static inline int load(const char *path, uint8_t *bytes, size_t room, size_t *length)
{
    int why = fetch(path, bytes, room, length);
    if (why != 0)
        fprintf(stderr, "ormsvelg: cannot read %s: %s\n", is_standard_input(path) ? "standard input" : path, strerror(why));
    return why == 0;
}

/* A two-byte number, low byte first. */
static inline unsigned word(const uint8_t *at) { return at[0] + 256u * at[1]; }

/* A table from its count on: the cell's name and a digit for each row. Gives the place after it. */
static inline const uint8_t *show_table(char cell, const uint8_t *at)
{
    unsigned rows = word(at);
    printf("%c ", cell);
    for (unsigned row = 0; row < rows; row++)
        putchar('0' + at[2 + row]);
    putchar('\n');
    return at + 2 + rows;
}

#endif
