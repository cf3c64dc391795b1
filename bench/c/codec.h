/* A second codec: the bytes of a step, as document 01's section on the record says. */
#ifndef CODEC_H
#define CODEC_H

#include "mwb.h"

enum { LONGEST_STEP = 22 };

/* Step, site or position, instruction, tag, first, second. */
typedef struct numbers {
    uint32_t of[6];
} numbers;

/* How many of a step's six numbers it has. */
size_t numbers_of(uint32_t step, uint32_t instruction);

/* Gives the length of what it put. */
size_t put_step(uint8_t *out, numbers x);

/* Whether a writer gave just this. */
bool is_wrote(mwb_wrote w, uint32_t number, size_t place, size_t next);

#endif
