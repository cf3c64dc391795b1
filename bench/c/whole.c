#include "writes.h"
#include "codec.h"
#include "expect.h"
#include "guard.h"

#include <string.h>

enum { MOST_ROWS = MWB_MOST_BYTES };

static const uint32_t good_sizes[6] = {2, 2, 4, 1, 1, 1}, bad_sizes[6] = {2, 2, 17, 1, 1, 1};

/* Numbers and buffer are guarded both. */
static mwb_wrote write_whole(guarded buf, const uint32_t z[6], guarded lent) {
    const uint32_t *from = (const uint32_t *)(const void *)lent.bytes;
    return mwb_write_record(buf.bytes, buf.length, z[0], z[1], z[2], z[3], z[4], z[5], from, lent.length / sizeof *from);
}

static size_t check_whole_refused(size_t length, const uint32_t z[6], const uint32_t *from, size_t count, uint32_t number, size_t place) {
    guarded buf = guard_buffer(length), lent = guard_bytes(from, count * sizeof *from);
    EXPECT(is_wrote(write_whole(buf, z, lent), number, place, 0) && is_filler(buf.bytes, length));
    unguard(lent);
    unguard(buf);
    return 1;
}

/* The record of some rows, in a buffer that has so many bytes more; the same by mwb_write_rows. */
static size_t check_whole_written(const mwb_row *rows, size_t count, const uint8_t *expected, size_t length, size_t more) {
    guarded lent = guard_bytes(rows, count * sizeof *rows);
    for (int as_rows = 0; as_rows < 2; as_rows++) {
        guarded buf = guard_buffer(length + more);
        mwb_wrote w = as_rows ? mwb_write_rows(buf.bytes, buf.length, 2, 2, 4, 1, 1, 1, (const mwb_row *)(const void *)lent.bytes, count)
                              : write_whole(buf, good_sizes, lent);
        EXPECT(is_wrote(w, MWB_DONE, 0, length));
        EXPECT(memcmp(buf.bytes, expected, length) == 0 && is_filler(buf.bytes + length, more));
        unguard(buf);
    }
    unguard(lent);
    return 2;
}

/* A row of each form, each of its numbers another, with the bytes of the record behind six sizes. What a step does not have is not 0. */
static size_t rows_of_each_form(mwb_row *rows, uint8_t *expected) {
    size_t length = 0;
    for (size_t i = 0; i < 6; i++) expected[length++] = (uint8_t)good_sizes[i];
    for (uint32_t i = 0; i < 15; i++) {
        numbers x = {{i < 8 ? i : 0, 1000 + i, i < 8 ? i % 8 : i - 7, 2000 + i, 3000000 + i, UINT32_MAX - i}};
        rows[i] = (mwb_row){x.of[0], x.of[1], x.of[2], x.of[3], x.of[4], x.of[5]};
        length += put_step(expected + length, x);
    }
    return length;
}

/* A buffer is a byte or more too short; each row in turn is the last and is cut anywhere; each in turn is the first that names no step. */
static size_t check_forms(void) {
    mwb_row rows[15];
    uint8_t expected[6 + 15 * LONGEST_STEP];
    size_t length = rows_of_each_form(rows, expected), calls = 0;
    const uint32_t *from = &rows[0].step;
    calls += check_whole_written(rows, 15, expected, length, 0) + check_whole_written(rows, 15, expected, length, 7);
    calls += check_whole_written(rows, 0, expected, 6, 0) + check_whole_written(rows, 0, expected, 6, 1);
    for (size_t less = 0; less < length; less++) calls += check_whole_refused(less, good_sizes, from, 90, MWB_BUFFER_SHORT, 0);
    for (size_t count = 0; count < 90; count++) {
        if (count % 6 != 0) calls += check_whole_refused(length, good_sizes, from, count, MWB_NO_RECORD, count / 6);
        calls += check_whole_refused(count, bad_sizes, from, count, MWB_SIZE_OUTSIDE, 0);
    }
    for (size_t row = 15; row-- > 0;) {
        rows[row] = row % 2 ? (mwb_row){.step = 8} : (mwb_row){.step = MWB_ISSUE, .instruction = UINT32_MAX};
        calls += check_whole_refused(length, good_sizes, from, 90, MWB_NO_RECORD, row);
        calls += check_whole_refused(0, good_sizes, from, 89, MWB_NO_RECORD, row);
    }
    return calls;
}

/* A serve is a byte: so many of them make a record of the most bytes, and one more a record that is too long. */
static size_t check_longest(void) {
    static mwb_row rows[MOST_ROWS];
    static uint8_t expected[MWB_MOST_BYTES];
    const uint32_t *from = &rows[0].step;
    size_t most = MWB_MOST_BYTES - 6, calls = 0;
    for (size_t i = 0; i < MOST_ROWS; i++) rows[i].step = MWB_SERVE;
    for (size_t i = 0; i < MWB_MOST_BYTES; i++) expected[i] = (uint8_t)(i < 6 ? good_sizes[i] : MWB_SERVE);
    calls += check_whole_written(rows, most, expected, MWB_MOST_BYTES, 0) + check_whole_written(rows, most, expected, MWB_MOST_BYTES, 1);
    calls += check_whole_refused(MWB_MOST_BYTES - 1, good_sizes, from, 6 * most, MWB_BUFFER_SHORT, 0);
    const size_t longer[] = {most + 1, most + 2, MOST_ROWS};
    for (size_t i = 0; i < sizeof longer / sizeof *longer; i++) {
        size_t count = longer[i];
        calls += check_whole_refused(MWB_MOST_BYTES + 1, good_sizes, from, 6 * count, MWB_RECORD_LONG, MWB_MOST_BYTES);
        calls += check_whole_refused(0, good_sizes, from, 6 * count, MWB_RECORD_LONG, MWB_MOST_BYTES);
        calls += check_whole_refused(0, good_sizes, from, 6 * count - 5, MWB_NO_RECORD, count - 1);
        calls += check_whole_refused(0, bad_sizes, from, 6 * count - 5, MWB_SIZE_OUTSIDE, 0);
    }
    return calls;
}

size_t check_whole(void) {
    return check_forms() + check_longest();
}
