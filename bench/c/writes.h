/* Document 01, Record 1 to 6: what the writer writes, held to a second codec, and read back. */
#ifndef WRITES_H
#define WRITES_H

#include <stddef.h>

/* Sizes at and outside their limits: written, made fresh, refused. Gives the number of calls made. */
size_t check_sizes(void);

/* Steps of each form with numbers of each length, in exact buffers, longer ones, and ones that are a byte short. Gives the number of writes. */
size_t check_steps(void);

/* Whole records: rows of each form, rows that name no step, cut ones, records around the most bytes. Gives the number of calls made. */
size_t check_whole(void);

#endif
