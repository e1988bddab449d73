/* speed/judge.h: judges an answer by the definitions alone, so that only right answers are timed.
 * Tables are judged to fit, not to be the first; that they are shows where all solvers give equal bytes.
 */
#ifndef SPEED_JUDGE_H
#define SPEED_JUDGE_H

#include <stddef.h>
#include <stdint.h>

#include "plain.h"

/* Whether the answer is a sheet of tables that fit the job, or of a walk that stands. The job is of the form named. */
bool judge_answer(form of, const uint8_t *job, size_t job_len, const uint8_t *answer, size_t answer_len);

#endif
