/* Memory to lend that ends right before a page which nobody may touch: whatever reads or writes past it faults. */
#ifndef GUARD_H
#define GUARD_H

#include "mwb.h"
#include <stdio.h>

typedef struct guarded {
    uint8_t *bytes;
    size_t length;
    void *pages;
    size_t mapped;
} guarded;

/* What the bytes of a guarded buffer hold until they are written. */
#define FILLER 0xA5

/* A buffer to be written, all FILLER. */
guarded guard_buffer(size_t length);

/* Whether bytes still are. */
bool is_filler(const uint8_t *bytes, size_t length);

/* A copy of some bytes, in memory that can only be read. */
guarded guard_bytes(const void *bytes, size_t length);

/* All that a file has, in memory that can only be read. */
guarded guard_file(FILE *file);

/* A system, guarded too; what it holds is 0. */
guarded guard_system(void);
mwb_system *system_in(guarded system);

void unguard(guarded lent);

#endif
