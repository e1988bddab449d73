/* speed/sheets.h: the sheets that make speed times. Each maker writes a sheet and gives its length. */
#ifndef SPEED_SHEETS_H
#define SPEED_SHEETS_H

#include <stddef.h>
#include <stdint.h>

/* The longest job sheet there is: 12 wires, 8 seen by each cell, 256 rules of 28 terms. */
size_t longest_job(uint8_t *sheet);

/* An ordinary one: 8 wires, 4 seen by each cell, 60 rules of 2 to 5 terms spread over the 20. */
size_t ordinary_job(uint8_t *sheet);

/* The largest tables, 256 rows for each cell, and a job that they fit: 12 wires, 8 seen by each cell, 256 random rules
 * of 4 to 8 terms, no term beside its negation. Every rule holds at every combination, so a check tests them all. */
size_t largest_tables(uint8_t *sheet);
size_t fitted_job(uint8_t *sheet, const uint8_t *tables);

/* The longest section of excuses, 64 of 24 terms: behind the longest job it makes the longest sheet of form two. */
#define LONGEST_EXCUSES 1602
size_t longest_excuses(uint8_t *section);

/* 64 excuses of so many terms each, at most 12, of different wires. Those of more terms contain those of fewer. */
size_t mixed_excuses(uint8_t *section, unsigned terms);

#endif
