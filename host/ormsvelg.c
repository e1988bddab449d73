/* host/ormsvelg.c: the command for files at the bench: reads, solves, checks, widens, writes and moves sheets, in words.
 * Use: ormsvelg --help. Exit status: 0 an accepted outcome, 1 a refusal, 2 a wrong use or a file that fails.
 * Every outcome is the proved library's. What stands here carries bytes, takes a text apart, puts numbers into words, and
 * finds the rule that tables break at the library's combination.
 */
#define _XOPEN_SOURCE 700

#include "archive.h"
#include "describe.h"
#include "request.h"
#include "save.h"
#include "sheet.h"
#include "words.h"

#ifndef VERSION
#define VERSION "of no version"
#endif

static int is_same(const struct stat *left, const struct stat *right)
{
    return left->st_dev == right->st_dev && left->st_ino == right->st_ino;
}

/* Whether the target is one of the files that are read: what is made would then take its place. */
static int target_is_read(const struct request *request)
{
    struct stat target, file;
    if (request->target == NULL || stat(request->target, &target) != 0 || !S_ISREG(target.st_mode))
        return 0;
    for (int i = 0; i < request->files; i++) {
        if (is_standard_input(request->paths[i]) || stat(request->paths[i], &file) != 0)
            continue;
        if (is_same(&file, &target))
            return !wrong_use("-o names a file that is read: ", request->target);
    }
    return 0;
}

/* The sheets that a call reads, in the order of the words, and the sheet that it writes. No moved sheet is longer than an
 * answer can be. */
struct bench {
    struct sheet sheets[MOST_SHEETS];
    uint8_t out[ORMSVELG_LONGEST_ANSWER];
};

/* The library's calls for job sheets of one form; `move` brings a sheet to it. */
struct calls {
    uint64_t (*read)(const uint8_t *, size_t);
    uint64_t (*solve)(const uint8_t *, size_t, uint8_t *, size_t);
    uint64_t (*check)(const uint8_t *, size_t, const uint8_t *, size_t);
    uint64_t (*widen)(const uint8_t *, size_t, const uint8_t *, size_t, const uint8_t *, size_t, uint8_t *, size_t);
    uint64_t (*move)(const uint8_t *, size_t, uint8_t *, size_t);
};

static const struct calls calls_of_form[] = {
    [1] = {ormsvelg_read, ormsvelg_solve, ormsvelg_check, ormsvelg_widen, ormsvelg_to_one},
    [2] = {ormsvelg_read_two, ormsvelg_solve_two, ormsvelg_check_two, ormsvelg_widen_two, ormsvelg_to_two},
};

static uint64_t call(const struct request *request, struct bench *bench)
{
    const struct calls *calls = &calls_of_form[request->form];
    const struct sheet *job = &bench->sheets[0], *second = &bench->sheets[1], *third = &bench->sheets[2];
    switch (request->act) {
    case READ: return calls->read(job->bytes, job->length);
    case SOLVE: return calls->solve(job->bytes, job->length, bench->out, sizeof bench->out);
    case CHECK: return calls->check(job->bytes, job->length, second->bytes, second->length);
    case MOVE: return calls->move(job->bytes, job->length, bench->out, sizeof bench->out);
    default:
        return calls->widen(job->bytes, job->length, second->bytes, second->length, third->bytes, third->length,
                            bench->out, sizeof bench->out);
    }
}

/* A job that was read, or one that was moved. */
static void show_accepted(uint64_t outcome, const struct request *request, const struct bench *bench)
{
    if (request->act == MOVE) {
        show_made(bench->out, ormsvelg_written(outcome), request->form);
        return;
    }
    puts("accepted");
    show_job(bench->sheets[0].bytes, request->form);
}

/* Says the outcome and gives the exit status. */
static int tell(uint64_t outcome, const struct request *request, const struct bench *bench)
{
    const uint8_t *job = bench->sheets[0].bytes;
    const uint8_t *handed_in = bench->sheets[request->act == WIDEN ? 2 : 1].bytes;
    const uint8_t *answer = request->act == CHECK ? handed_in : bench->out;
    switch (ormsvelg_code(outcome)) {
    case ORMSVELG_ACCEPTED: show_accepted(outcome, request, bench); return 0;
    case ORMSVELG_TABLES: show_tables(answer); return 0;
    case ORMSVELG_WALK: show_walk(job, answer); return 0;
    default: show_refusal(outcome, job, handed_in); return 1;
    }
}

static int serve_sheets(const struct request *request)
{
    static struct bench bench;
    for (int i = 0; i < request->files; i++) {
        struct sheet *sheet = &bench.sheets[i];
        if (!load(request->paths[i], sheet->bytes, sizeof sheet->bytes, &sheet->length))
            return NO_SHEET;
    }
    uint64_t outcome = call(request, &bench);
    if (request->target != NULL && ormsvelg_written(outcome) > 0
        && !save(request->target, bench.out, ormsvelg_written(outcome)))
        return NO_SHEET;
    return tell(outcome, request, &bench);
}

/* Writes a description's sheet, puts it where it is wanted and says what it holds. Any sheet has room. */
static int serve_description(const struct request *request, const struct text *text, const struct description *described)
{
    static uint8_t sheet[ORMSVELG_LONGEST_JOB];
    uint64_t outcome = ormsvelg_write(described->pins, described->wires, described->sees[0], described->sees[1],
                                      described->rules, described->rules_len, sheet, sizeof sheet);
    if (ormsvelg_code(outcome) != ORMSVELG_ACCEPTED) {
        show_refused_entry(outcome, text, described);
        return 1;
    }
    if (request->target != NULL && !save(request->target, sheet, ormsvelg_written(outcome)))
        return NO_SHEET;
    show_made(sheet, ormsvelg_written(outcome), request->form);
    return 0;
}

static int serve_text(const struct request *request)
{
    static struct text text;
    static struct description described;
    struct reading reading;
    if (!load(request->paths[0], text.bytes, sizeof text.bytes, &text.length))
        return NO_SHEET;
    if (describe(&text, &reading, &described))
        return serve_description(request, &text, &described);
    show_fault(&reading);
    return 1;
}

/* A moved sheet would find the one that it was made of under its name. */
static int serve_archive(const struct request *request)
{
    struct archive archive = {request->paths[0], request->paths[1], calls_of_form[request->form].move, NULL, 0};
    struct stat from, to;
    if (stat(archive.from, &from) != 0 || stat(archive.to, &to) != 0 || !is_same(&from, &to))
        return move_archive(&archive);
    wrong_use("DIR-OUT is DIR-IN: ", archive.to);
    return NO_SHEET;
}

static int serve(const struct request *request)
{
    if (target_is_read(request))
        return NO_SHEET;
    switch (request->act) {
    case WRITE: return serve_text(request);
    case MOVE_ALL: return serve_archive(request);
    default: return serve_sheets(request);
    }
}

/* What was printed may still fail to go out. */
static int finish(int status)
{
    int failed = ferror(stdout), why = errno;
    if (fclose(stdout) != 0 && !failed) {
        failed = 1;
        why = errno;
    }
    if (!failed)
        return status;
    fprintf(stderr, "ormsvelg: cannot write standard output: %s\n", strerror(why));
    return NO_SHEET;
}

int main(int count, char **words)
{
    struct request request = {0};
    if (count > 1 && strcmp(words[1], "--help") == 0) {
        fputs(help, stdout);
        return finish(0);
    }
    if (count > 1 && strcmp(words[1], "--version") == 0) {
        puts("ormsvelg " VERSION);
        return finish(0);
    }
    if (!take_words(count - 1, words + 1, &request))
        return NO_SHEET;
    return finish(serve(&request));
}
