/* speed/families.h: the jobs that the solvers are timed on, in families, made from a fixed seed.
 * The same jobs come out on every machine and in every run.
 */
#ifndef SPEED_FAMILIES_H
#define SPEED_FAMILIES_H

#include <stdint.h>

#include <string>
#include <vector>

struct family {
    std::string name;
    std::vector<std::vector<uint8_t>> sheets;
};

std::vector<family> families();

/* A job with tables, and one that asks no more: its cells see more wires, and each of its rules has more terms. */
struct widening_pair {
    std::vector<uint8_t> narrow, wide;
};

std::vector<widening_pair> widenings();

#endif
