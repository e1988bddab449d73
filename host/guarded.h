/* host/guarded.h: what the tests of the reader and the checker share: outcomes, judged against numbers written by hand.
 * Each sheet lies read-only and right before memory that cannot be touched: a call that writes, or reads beyond the length
 * it was given, ends the program.
 */
#ifndef HOST_GUARDED_H
#define HOST_GUARDED_H

#define _DEFAULT_SOURCE
#include <inttypes.h>
#include <stdio.h>
#include <stdlib.h>
#include <string.h>
#include <sys/mman.h>

#include "listed.h"
#include "ormsvelg.h"

/* A multiple of every page size in use. */
#define ROOM 65536
#define MOST_SHOWN 20

/* The calls under test: those of one form of job sheets. */
struct calls {
    uint64_t (*read)(const uint8_t *, size_t);
    uint64_t (*check)(const uint8_t *, size_t, const uint8_t *, size_t);
};

static struct calls calls;
static uint8_t *job_room, *answer_room;
static unsigned checks, failures;

static void judge(const char *name, size_t length, uint64_t got, uint64_t wanted)
{
    checks++;
    if (got == wanted)
        return;
    if (++failures <= MOST_SHOWN)
        printf("FAILED %s (%zu bytes): outcome %016" PRIx64 ", wanted %016" PRIx64 "\n", name, length, got, wanted);
}

static void need(int done, const char *what)
{
    if (done)
        return;
    perror(what);
    exit(1);
}

/* Room for one sheet, with memory behind it that cannot be touched. */
static uint8_t *guarded_room(void)
{
    uint8_t *room = mmap(NULL, 2 * ROOM, PROT_READ | PROT_WRITE, MAP_PRIVATE | MAP_ANONYMOUS, -1, 0);
    need(room != MAP_FAILED && mprotect(room + ROOM, ROOM, PROT_NONE) == 0, "host: guarded memory");
    return room;
}

/* The sheet at the end of a room that can only be read, until it is given back. */
static const uint8_t *lend(uint8_t *room, const uint8_t *sheet, size_t length)
{
    uint8_t *lent = room + ROOM - length;
    memcpy(lent, sheet, length);
    need(mprotect(room, ROOM, PROT_READ) == 0, "host: lending a sheet");
    return lent;
}

static void give_back(uint8_t *room)
{
    need(mprotect(room, ROOM, PROT_READ | PROT_WRITE) == 0, "host: giving a sheet back");
}

static uint64_t read_guarded(const uint8_t *sheet, size_t length)
{
    uint64_t outcome = calls.read(lend(job_room, sheet, length), length);
    give_back(job_room);
    return outcome;
}

static uint64_t check_guarded(const uint8_t *job, size_t job_length, const uint8_t *answer, size_t answer_length)
{
    const uint8_t *lent_job = lend(job_room, job, job_length);
    const uint8_t *lent_answer = lend(answer_room, answer, answer_length);
    uint64_t outcome = calls.check(lent_job, job_length, lent_answer, answer_length);
    give_back(job_room);
    give_back(answer_room);
    return outcome;
}

static void accepts(const char *name, const uint8_t *sheet, size_t length)
{
    judge(name, length, read_guarded(sheet, length), 0);
}

/* Refusals of the reader name sheet 1 and write 0 bytes. */
static void refuses(const char *name, const uint8_t *sheet, size_t length, uint64_t code, uint64_t place)
{
    judge(name, length, read_guarded(sheet, length), code | 1 << 8 | place << 16);
}

static void prefixes(const char *name, const uint8_t *sheet, size_t length)
{
    for (size_t part = 0; part < length; part++)
        refuses(name, sheet, part, 1, part);
}

/* Successes of the checker, 20 and 21, have sheet and place 0 and write 0 bytes. */
static void confirms(const char *name, const uint8_t *job, size_t job_length, const uint8_t *answer,
                     size_t answer_length, uint64_t code)
{
    judge(name, answer_length, check_guarded(job, job_length, answer, answer_length), code);
}

/* Refusals of an answer name sheet 2 and write 0 bytes. */
static void rejects(const char *name, const uint8_t *job, size_t job_length, const uint8_t *answer,
                    size_t answer_length, uint64_t code, uint64_t place)
{
    judge(name, answer_length, check_guarded(job, job_length, answer, answer_length), code | 2 << 8 | place << 16);
}

static void answer_prefixes(const char *name, const uint8_t *job, size_t job_length, const uint8_t *answer,
                            size_t answer_length)
{
    for (size_t part = 0; part < answer_length; part++)
        rejects(name, job, job_length, answer, part, 7, part);
}

/* The outcome of a bad job, sheet 1, whatever the answer: right, wrong in each of its ways, or empty. */
static void refuses_any(const char *name, const uint8_t *job, size_t length, uint64_t code, uint64_t place)
{
    static const uint8_t empty[1];
    uint64_t wanted = code | 1 << 8 | place << 16;
    judge(name, 0, check_guarded(job, length, empty, 0), wanted);
    judge(name, 8, check_guarded(job, length, SHEET(J1_TABLES)), wanted);
    judge(name, 22, check_guarded(job, length, SHEET(J4_WALK)), wanted);
    judge(name, 2, check_guarded(job, length, SHEET(TWO(9))), wanted);
    judge(name, 3, check_guarded(job, length, SHEET(TWO(1), 2)), wanted);
    judge(name, 10, check_guarded(job, length, SHEET(WALK(1, ENTRY(65535, 0)))), wanted);
    judge(name, 9, check_guarded(job, length, SHEET(J1_TABLES, 0)), wanted);
}

static void group(const char *name)
{
    static unsigned failures_before;
    printf("%s: %s\n", name, failures == failures_before ? "as written" : "FAILED");
    fflush(stdout);
    failures_before = failures;
}

static void begin(struct calls under_test)
{
    calls = under_test;
    job_room = guarded_room();
    answer_room = guarded_room();
}

/* Says how many checks passed, and gives the exit status. */
static int verdict(const char *name)
{
    if (failures != 0)
        printf("%s: %u of %u checks failed\n", name, failures, checks);
    else
        printf("%s: %u checks passed\n", name, checks);
    return failures != 0;
}

#endif
