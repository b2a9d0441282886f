/* The check of a match block, from C. Link target/library/libgatesorrel.a, which library/run makes (x86-64 Linux). */
#ifndef GATESORREL_H
#define GATESORREL_H

#include <stddef.h>
#include <stdint.h>

/* The sizes that the program lends. A longer file is refused with 2, a shorter scratch with 1. A report that is longer than its
   buffer is refused with 11: a larger buffer takes it. */
#define GATESORREL_FILE 49152
#define GATESORREL_SCRATCH 16384
#define GATESORREL_REPORT 32768

/* Checks the file_length bytes at file.

   Answers 0 for a report: its length is then in *length, its bytes are the first of the report buffer, the others are unchanged,
   and *line is 0. Answers a number from 1 to 11 for a refusal: *line has its line (0 where no line is at fault), *length is 0, and no byte
   of the report buffer is changed. The scratch is all zero afterwards, whatever the answer. Every length is answered for: none is
   too small or too large to ask about.

   The caller keeps to this: each pointer points to as many elements as the length after it says, aligned for them, also where that is
   0 (any aligned pointer that is not null will do then); file, scratch, report, line and length do not overlap; nothing else writes to them during
   the call. The function keeps no pointer, allocates nothing, and takes stack: 2.3 MiB at the
   most that was measured, under 5 MiB by an argument that is not proved (docs/CAMPAIGN.md). */
uint8_t gatesorrel_check(const uint8_t *file, size_t file_length,
                         uint16_t *scratch, size_t scratch_length,
                         uint8_t *report, size_t report_length,
                         size_t *line, size_t *length);

#endif
