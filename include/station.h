/* What a station's host program calls: checksums compared, and one field read from a screen sheet.
   The crates `station` and `station_c` promise each answer for every input; link libstation.a, which host/run.sh makes.

   Each call answers one 64-bit number, the refusal above and the value below:

       refusal = answer >> 32          0 where nothing was refused
       value   = answer & 0xffffffff   0 where the call was refused

   A pointer may be anything where its length is 0. No call keeps a pointer or writes through one. */
#ifndef STATION_H
#define STATION_H

#include <stddef.h>
#include <stdint.h>

#ifdef __cplusplus
extern "C" {
#endif

/* Whether two checksums match. The value is 1 for equal and 0 for different.
   Refusal 24: one of them is not nine bytes long.
   A key is released exactly when the answer is 1: test `answer == 1`, and never only that the answer is not 0,
   since a refusal is not 0 either. An interlaced picture has nine bytes of each field, which cover that field's lines
   alone: compare both, each with its own reference, and release only if both answers are 1.
   What equal checksums say of two fields, and what they do not: docs/HANDBOOK.md, section 7. */
uint64_t station_compare_checksums(const uint8_t *a, size_t a_len, const uint8_t *b, size_t b_len);

/* The value of one field of a whole good sheet, by its tag, 0x21 (HalfSync) to 0x2e (TransferDelay).
   Refusal 31 first: a tag outside these. Then the sheet's own, whichever field is asked for, at the first field that
   has one: 30 the sheet ends early; 31 a tag is not the one due; 32 a length is not 2; 33 bytes are left over. */
uint64_t station_sheet_field(const uint8_t *sheet, size_t len, uint32_t tag);

#ifdef __cplusplus
}
#endif

#endif
