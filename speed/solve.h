/* speed/solve.h: the two C++ solvers that the proved one is timed against, and what they share.
 * Both take a job sheet and a lent buffer and give the outcome number of the library's solver, refusals too.
 * Tables are equal bytes in all three, since the first pair is wanted; of several walks each gives its own.
 * Each solver stands in its own file, so that no compiler joins it with the loop that times it.
 */
#ifndef SPEED_SOLVE_H
#define SPEED_SOLVE_H

#include <stddef.h>
#include <stdint.h>

typedef uint64_t solver(const uint8_t *job, size_t job_len, uint8_t *answer, size_t answer_len);

/* The library's algorithm, the same work the same way; for form one, and for form two. */
solver plain_solve, plain_solve_two;

/* The fastest way known to the same outcome, for form one. */
solver best_solve;

enum { NO_ROOM = 6, TABLES = 20, WALK = 21, LONGEST_ANSWER = 8190 };

/* Claim 2r says that row r holds 0, claim 2r + 1 that it holds 1; rows of A come first. */
struct claim {
    uint16_t number;
};

struct combination {
    uint16_t number;
};

inline claim opposite(claim of)
{
    return {(uint16_t)(of.number ^ 1)};
}

inline uint64_t succeeded(uint64_t code, size_t written)
{
    return code | (uint64_t)written << 40;
}

/* The writers give the place after what they wrote. */
inline size_t put_two(uint8_t *out, size_t at, unsigned number)
{
    out[at] = (uint8_t)number;
    out[at + 1] = (uint8_t)(number >> 8);
    return at + 2;
}

inline size_t put_entry(uint8_t *out, size_t at, claim from, combination by)
{
    return put_two(out, put_two(out, at, from.number), by.number);
}

#endif
