/* host/lent.h: what the tests of calls that write share: a lent buffer filled with a pattern, so that every byte that must
 * stay can be looked at, and the count of checks.
 */
#ifndef HOST_LENT_H
#define HOST_LENT_H

#include <stdio.h>
#include <string.h>

#include "listed.h"
#include "ormsvelg.h"

#define ROOM 9000

static unsigned checks, failures;
static uint8_t lent[ROOM];

static void expect(const char *name, const char *what, uint64_t got, uint64_t wanted)
{
    checks++;
    if (got == wanted)
        return;
    failures++;
    printf("%s: %s is %llu, and should be %llu\n", name, what, (unsigned long long)got, (unsigned long long)wanted);
}

static uint8_t pattern(size_t place) { return (uint8_t)(place * 7 + 3); }

static void lend(void)
{
    for (size_t place = 0; place < ROOM; place++)
        lent[place] = pattern(place);
}

/* Every byte from `first` on is as it was. */
static void stays(const char *name, size_t first)
{
    size_t place = first;
    while (place < ROOM && lent[place] == pattern(place))
        place++;
    expect(name, "the first byte changed", place, ROOM);
}

/* Says how many checks passed, and gives the exit status. */
static int verdict(const char *call)
{
    if (failures)
        printf("%s: %u of %u checks failed\n", call, failures, checks);
    else
        printf("%s: %u checks passed\n", call, checks);
    return failures != 0;
}

#endif
