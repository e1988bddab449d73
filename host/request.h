/* host/request.h: what the words of the command ask for: its verbs, their options and files, and the page of --help.
 * A wrong use is told on standard error.
 */
#ifndef HOST_REQUEST_H
#define HOST_REQUEST_H

#include "sheet.h"

#define MOST_SHEETS 3

enum act { READ, SOLVE, CHECK, WIDEN, WRITE, MOVE, MOVE_ALL };

/* A verb has one option for a form, that of its job sheets or the one that they are moved to: any form up to `forms`.
 * Without the option it is `usual`; where that is 0 the option must be there. */
struct verb {
    const char *name, *wants;
    int files, writes;
    const char *option;
    int forms, usual;
};

static const struct verb verbs[] = {
    [READ] = {"read", "[--form 2] JOB", 1, 0, "--form", 2, 1},
    [SOLVE] = {"solve", "[--form 2] JOB [-o ANSWER]", 1, 1, "--form", 2, 1},
    [CHECK] = {"check", "[--form 2] JOB ANSWER", 2, 0, "--form", 2, 1},
    [WIDEN] = {"widen", "[--form 2] P Q ANSWER [-o OUT]", 3, 1, "--form", 2, 1},
    [WRITE] = {"write", "TEXT [-o JOB]", 1, 1, "--form", 1, 1},
    [MOVE] = {"move", "--to 2|1 IN [-o OUT]", 1, 1, "--to", 2, 0},
    [MOVE_ALL] = {"move-all", "[--to 2|1] DIR-IN DIR-OUT", 2, 0, "--to", 2, 2},
};

#define VERBS ((int)(sizeof verbs / sizeof verbs[0]))

/* What the words of the command ask for: an act, the form of its option, or 0 while none is named, the files it reads or
 * the two folders, and where the sheet it makes goes, or null. */
struct request {
    int act, form, files;
    const char *paths[MOST_SHEETS], *target;
};

static const char help[] =
    "ormsvelg: whether two cells of a board can be filled so that every rule holds in every state of the wires.\n"
    "\n"
    "  ormsvelg read [--form 2] JOB                     says what a job sheet holds\n"
    "  ormsvelg solve [--form 2] JOB [-o ANSWER]        gives the first fitting pair of tables, or a walk if there is none\n"
    "  ormsvelg check [--form 2] JOB ANSWER             checks an answer sheet for a job\n"
    "  ormsvelg widen [--form 2] P Q ANSWER [-o OUT]    widens tables for job P to job Q, which asks no more\n"
    "  ormsvelg write TEXT [-o JOB]                     makes a job sheet of form 1 from a readable text\n"
    "  ormsvelg move --to 2|1 IN [-o OUT]               moves a job sheet of the other form to form 2 or 1\n"
    "  ormsvelg move-all [--to 2|1] DIR-IN DIR-OUT      moves every job sheet of a folder, to form 2 without --to\n"
    "  ormsvelg --help | --version\n"
    "\n"
    "Job sheets are of form 1, or of form 2 with --form 2. Form 2 has excuses after the rules, each a set of terms of the\n"
    "wires. Where all terms of an excuse hold, the wires are in a state that the board cannot make: no rule has to hold\n"
    "there, and no step of a walk holds by it. A moved sheet is the same job; one with excuses can't be moved to form 1.\n"
    "\n"
    "A sheet is a file of bytes; one file may be -, standard input. With -o the sheet that is made is put in a file, whole\n"
    "or not at all. A table has a digit for each row, rows rising; a row is numbered by the wires the cell sees, lowest\n"
    "first, with weights 1, 2, 4 and so on. A line of a walk says what one row's value asks of another's, by the states\n"
    "of the wires; the last leads back to the first. In a refusal sheet 1 is JOB, P or IN, sheet 2 ANSWER, sheet 3 Q.\n"
    "For tables that break a rule it goes on with the states of the wires, the lowest rule of JOB or P that is broken\n"
    "there, and what A and B hold there.\n"
    "\n"
    "A text has a line for the pins of the wires, one for the wires that A sees, one for those that B sees, and then one\n"
    "for each rule. Wires are numbered from 0, in the order of their pins; # begins a comment:\n"
    "\n"
    "  pins 4 7\n"
    "  A 0\n"
    "  B 1\n"
    "  rule +1 A -B    # wire 1 is 1 or A is 1 or B is 0\n"
    "\n"
    "A refusal of a text names line and column. Sections 1 to 4 are the pins, A, B and the rules.\n"
    "\n"
    "move-all takes the files of DIR-IN in the order of their names, without folders and names that begin with a dot, and\n"
    "puts each moved sheet under the same name in DIR-OUT, which is made if it is not there. A file that stands there is\n"
    "never replaced; with the very bytes of the moved sheet it counts as done, so that a run can be run again. It says on\n"
    "standard error how each file ended, and then on standard output how many ended in each way.\n"
    "\n"
    "Exit status: 0 an accepted outcome, 1 a refusal, 2 a wrong use or a file that fails.\n";

static inline int wrong_option(const char *option, const char *what, const char *which)
{
    fprintf(stderr, "ormsvelg: %s%s%s\ntry: ormsvelg --help\n", option, what, which);
    return 0;
}

static inline int wrong_use(const char *what, const char *which) { return wrong_option("", what, which); }

static inline int find_act(const char *name, struct request *request)
{
    for (request->act = 0; request->act < VERBS; request->act++)
        if (strcmp(name, verbs[request->act].name) == 0)
            return 1;
    return wrong_use("unknown command: ", name);
}

/* Takes --form or --to and the number after it. Gives how many words that is, or 0 for a wrong use. */
static inline int take_form(int left, char **words, struct request *request)
{
    const struct verb *verb = &verbs[request->act];
    if (strcmp(words[0], verb->option) != 0)
        return wrong_option(words[0], " has no meaning for ", verb->name);
    if (request->form != 0)
        return wrong_option(words[0], " is given twice", "");
    if (left < 2)
        return wrong_option(words[0], " wants 1 or 2", "");
    if (strcmp(words[1], "1") != 0 && strcmp(words[1], "2") != 0)
        return wrong_option(words[0], " wants 1 or 2, not ", words[1]);
    request->form = words[1][0] - '0';
    if (request->form > verb->forms)
        return wrong_option(words[0], " 2 has no meaning for ", verb->name);
    return 2;
}

/* Takes -o and the name after it. Gives how many words that is, or 0 for a wrong use. */
static inline int take_target(int left, char **words, struct request *request)
{
    if (!verbs[request->act].writes)
        return wrong_use("-o has no meaning for ", verbs[request->act].name);
    if (request->target != NULL)
        return wrong_use("-o is given twice", "");
    if (left < 2)
        return wrong_use("-o wants a file", "");
    if (is_standard_input(words[1]))
        return wrong_use("-o wants a file, not -", "");
    request->target = words[1];
    return 2;
}

static inline int take_path(const char *word, struct request *request)
{
    if (word[0] == '-' && word[1] != 0)
        return wrong_use("unknown option: ", word);
    if (request->files == verbs[request->act].files)
        return wrong_use("one word too many: ", word);
    if (is_standard_input(word) && request->act == MOVE_ALL)
        return wrong_use("move-all wants folders, not -", "");
    for (int i = 0; i < request->files; i++)
        if (is_standard_input(word) && is_standard_input(request->paths[i]))
            return wrong_use("only one sheet can be -, standard input", "");
    request->paths[request->files++] = word;
    return 1;
}

/* Takes an option with what belongs to it, or a path. Gives how many words that is, or 0 for a wrong use. */
static inline int take_next(int left, char **words, struct request *request)
{
    if (strcmp(words[0], "-o") == 0)
        return take_target(left, words, request);
    if (strcmp(words[0], "--form") == 0 || strcmp(words[0], "--to") == 0)
        return take_form(left, words, request);
    return take_path(words[0], request);
}

/* Whether all that the verb wants is there. */
static inline int is_whole(const struct request *request)
{
    const struct verb *verb = &verbs[request->act];
    const char *path = request->act == MOVE_ALL ? "a folder" : "a file";
    if (request->files == verb->files && request->form != 0)
        return 1;
    fprintf(stderr, "ormsvelg: %s is missing\nuse: ormsvelg %s %s\n", request->files < verb->files ? path : verb->option,
            verb->name, verb->wants);
    return 0;
}

/* Takes the words after the command's name. */
static inline int take_words(int count, char **words, struct request *request)
{
    if (count == 0)
        return wrong_use("a command is missing", "");
    if (!find_act(words[0], request))
        return 0;
    for (int at = 1, taken; at < count; at += taken) {
        taken = take_next(count - at, words + at, request);
        if (taken == 0)
            return 0;
    }
    if (request->form == 0)
        request->form = verbs[request->act].usual;
    return is_whole(request);
}

#endif
