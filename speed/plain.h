/* speed/plain.h: the plain C++ that the library is timed against. Each call gives the library's outcome number.
 * It stands in its own file, so that no compiler joins it with the loop that times it.
 */
#ifndef SPEED_PLAIN_H
#define SPEED_PLAIN_H

#include <stddef.h>
#include <stdint.h>

/* What a job sheet says. A set is a mask: position p or term t has the bit 1 << p or 1 << t. */
struct job {
    unsigned wires, rule_count;
    uint8_t pins[12];
    uint32_t seen[2];
    uint32_t rules[256];
    unsigned excuse_count;
    uint32_t excuses[64];
    size_t excuses_at; /* the place of their count; in form one the sheet's length */
};

/* The form of a job sheet. In form one a job has no excuses. */
enum class form { one, two };

/* Reads a sheet of form one, or of form two; the last hands the job over. */
uint64_t plain_read(const uint8_t *sheet, size_t sheet_len);
uint64_t plain_read_two(const uint8_t *sheet, size_t sheet_len);
uint64_t plain_read_job(form of, const uint8_t *sheet, size_t sheet_len, job &read);

/* For an answer sheet with tables. A walk is refused with 8. */
uint64_t plain_check(const uint8_t *sheet, size_t sheet_len, const uint8_t *answer, size_t answer_len);
uint64_t plain_check_two(const uint8_t *sheet, size_t sheet_len, const uint8_t *answer, size_t answer_len);

/* The same of its answer sheet. */
uint64_t plain_widen(const uint8_t *p, size_t p_len, const uint8_t *q, size_t q_len, const uint8_t *answer,
                     size_t answer_len, uint8_t *out, size_t out_len);
uint64_t plain_widen_two(const uint8_t *p, size_t p_len, const uint8_t *q, size_t q_len, const uint8_t *answer,
                         size_t answer_len, uint8_t *out, size_t out_len);

/* For a description: the pins, what A and B see as masks, each rule as a mask. */
uint64_t plain_write(const uint8_t *pins, size_t pins_len, uint32_t sees_a, uint32_t sees_b, const uint32_t *rules,
                     size_t rules_len, uint8_t *sheet, size_t sheet_len);

/* From form one to form two, and back. */
uint64_t plain_to_two(const uint8_t *sheet, size_t sheet_len, uint8_t *moved, size_t moved_len);
uint64_t plain_to_one(const uint8_t *sheet, size_t sheet_len, uint8_t *moved, size_t moved_len);

#endif
