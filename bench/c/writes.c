#include "writes.h"
#include "codec.h"
#include "expect.h"
#include "guard.h"
#include "mwb_same.h"

static mwb_wrote write_step(guarded buf, size_t at, numbers x) {
    return mwb_write_step(buf.bytes, buf.length, at, x.of[0], x.of[1], x.of[2], x.of[3], x.of[4], x.of[5]);
}

/* In a buffer of this length the step is refused, and the buffer stays. */
static void check_refused(size_t length, size_t at, numbers x, uint32_t number, size_t place) {
    guarded buf = guard_buffer(length);
    EXPECT(is_wrote(write_step(buf, at, x), number, place, 0) && is_filler(buf.bytes, length));
    unguard(buf);
}

/* The bytes read back as the step, whose numbers that it has not are 0; cut anywhere, they are no record. */
static void check_read(const uint8_t *bytes, size_t length, size_t at, numbers x) {
    guarded record = guard_bytes(bytes, length);
    mwb_step_read r = mwb_read_step(record.bytes, length, at);
    uint32_t read[6] = {r.step, r.site, r.instruction, r.tag, r.first, r.second};
    EXPECT(r.number == MWB_DONE && !r.end && r.place == 0 && r.next == length);
    for (size_t i = 0; i < 6; i++) EXPECT(read[i] == (i < numbers_of(x.of[0], x.of[2]) ? x.of[i] : 0));
    for (size_t cut = at + 1; cut < length; cut++) {
        guarded less = guard_bytes(bytes, cut);
        r = mwb_read_step(less.bytes, cut, at);
        EXPECT(r.number == MWB_NO_RECORD && !r.end && r.place >= at && r.place <= cut && r.next == 0);
        unguard(less);
    }
    unguard(record);
}

/* Written into a buffer that has so many bytes more than the step needs. */
static void check_written(size_t at, numbers x, size_t more) {
    uint8_t expected[LONGEST_STEP];
    size_t length = put_step(expected, x);
    guarded buf = guard_buffer(at + length + more);
    EXPECT(is_wrote(write_step(buf, at, x), MWB_DONE, 0, at + length));
    EXPECT(is_filler(buf.bytes, at) && memcmp(buf.bytes + at, expected, length) == 0 && is_filler(buf.bytes + at + length, more));
    if (more == 0 && at < MWB_MOST_BYTES / 2) check_read(buf.bytes, buf.length, at, x);
    unguard(buf);
}

/* 11 where the bytes do not fit into the buffer; before it 13, where the step would end past 65,536 (Numbers 11a, 16). */
static size_t check_step(numbers x) {
    static const size_t offsets[] = {0, 1, 6, 4095, 4096};
    uint8_t expected[LONGEST_STEP];
    size_t length = put_step(expected, x), last = MWB_MOST_BYTES - length, writes = 0;
    for (size_t i = 0; i < sizeof offsets / sizeof *offsets; i++) {
        size_t at = offsets[i];
        check_written(at, x, 0);
        check_written(at, x, 3);
        check_refused(at + length - 1, at, x, MWB_BUFFER_SHORT, 0);
        check_refused(0, at, x, MWB_BUFFER_SHORT, 0);
        writes += 4;
    }
    check_written(last, x, 0);
    check_refused(MWB_MOST_BYTES - 1, last, x, MWB_BUFFER_SHORT, 0);
    check_refused(MWB_MOST_BYTES + 1, last + 1, x, MWB_RECORD_LONG, MWB_MOST_BYTES);
    check_refused(0, last + 1, x, MWB_RECORD_LONG, MWB_MOST_BYTES);
    check_refused(1, SIZE_MAX, x, MWB_RECORD_LONG, MWB_MOST_BYTES);
    check_refused(1, SIZE_MAX - length + 1, x, MWB_RECORD_LONG, MWB_MOST_BYTES);
    return writes + 6;
}

/* 10 is looked at before 13 and 11; the place counts the call's step numbers from 0. */
static size_t check_no_step(numbers x, size_t place) {
    check_refused(64, 0, x, MWB_NO_RECORD, place);
    check_refused(0, 0, x, MWB_NO_RECORD, place);
    check_refused(0, SIZE_MAX, x, MWB_NO_RECORD, place);
    return 3;
}

size_t check_steps(void) {
    /* The least and the most of each number of bytes. */
    static const uint32_t of_each_length[] = {0, 127, 128, 16383, 16384, 2097151, 2097152, 268435455, 268435456, UINT32_MAX};
    enum { LENGTHS = sizeof of_each_length / sizeof *of_each_length };
    size_t writes = 0;
    for (size_t i = 0; i < LENGTHS; i++) {
        numbers x = {{0, of_each_length[i], 0, of_each_length[(i + 3) % LENGTHS], of_each_length[(i + 5) % LENGTHS],
                      of_each_length[(i + 8) % LENGTHS]}};
        for (x.of[0] = MWB_RETRY; x.of[0] <= MWB_TAKE; x.of[0]++) writes += check_step(x);
        x.of[0] = MWB_ISSUE;
        for (x.of[2] = MWB_LOADL; x.of[2] <= MWB_FENCE_WW; x.of[2]++) writes += check_step(x);
        uint32_t above = of_each_length[i] > 7 ? of_each_length[i] : 8;
        x.of[2] = above;
        writes += check_no_step(x, 2);
        x.of[0] = above;
        writes += check_no_step(x, 0);
        /* Only an issue has an instruction. */
        x.of[0] = MWB_TAKE;
        writes += check_step(x);
    }
    return writes;
}

static mwb_wrote write_sizes(guarded buf, const uint32_t z[6]) {
    return mwb_write_sizes(buf.bytes, buf.length, z[0], z[1], z[2], z[3], z[4], z[5]);
}

static mwb_given fresh(mwb_system *s, const uint32_t z[6]) {
    return mwb_fresh(s, z[0], z[1], z[2], z[3], z[4], z[5]);
}

static bool is_nothing(mwb_given g, uint32_t number, size_t place) {
    return g.number == number && g.place == place && g.answered == 0 && g.site == 0 && g.tag == 0 && g.value == 0;
}

/* Step and instruction numbers above 7: 10, looked at before 2 and 4 and, where the state is not sound, behind 1. */
static void check_no_such_step(mwb_system *s) {
    mwb_system before = *s;
    bool sound = mwb_sound(s) == 1;
    uint32_t number = sound ? MWB_NO_RECORD : MWB_NOT_SOUND;
    EXPECT(is_nothing(mwb_step(s, 8, 9, 8, 0, 99, 99), number, 0));
    EXPECT(is_nothing(mwb_step(s, UINT32_MAX, 0, 0, 0, 0, 0), number, 0));
    EXPECT(is_nothing(mwb_step(s, MWB_ISSUE, 9, 8, 0, 99, 99), number, sound ? 2 : 0));
    EXPECT(is_nothing(mwb_step(s, MWB_ISSUE, 0, UINT32_MAX, 0, 0, 0), number, sound ? 2 : 0));
    EXPECT(mwb_same(s, &before));
}

/* Each size below 128 is a byte. */
static size_t check_good_sizes(const uint32_t z[6]) {
    guarded lent = guard_system();
    EXPECT(is_nothing(fresh(system_in(lent), z), MWB_DONE, 0) && mwb_sound(system_in(lent)) == 1);
    check_no_such_step(system_in(lent));
    unguard(lent);
    for (size_t length = 0; length <= 8; length++) {
        guarded buf = guard_buffer(length);
        EXPECT(is_wrote(write_sizes(buf, z), length < 6 ? MWB_BUFFER_SHORT : MWB_DONE, 0, length < 6 ? 0 : 6));
        size_t written = length < 6 ? 0 : 6;
        for (size_t i = 0; i < written; i++) EXPECT(buf.bytes[i] == z[i]);
        EXPECT(is_filler(buf.bytes + written, length - written));
        unguard(buf);
    }
    return 14;
}

/* With 12, mwb_fresh leaves 0 in every field of the lent system, and the check says no to that (Numbers 18). */
static size_t check_bad_sizes(const uint32_t z[6]) {
    static const mwb_system nothing;
    guarded lent = guard_system();
    mwb_system *s = system_in(lent);
    EXPECT(mwb_fresh(s, 2, 2, 4, 1, 1, 1).number == MWB_DONE);
    EXPECT(is_nothing(fresh(s, z), MWB_SIZE_OUTSIDE, 0) && mwb_same(s, &nothing) && mwb_sound(s) == 0);
    EXPECT(is_nothing(mwb_step(s, MWB_SERVE, 0, 0, 0, 0, 0), MWB_NOT_SOUND, 0));
    check_no_such_step(s);
    unguard(lent);
    for (size_t length = 0; length <= 8; length++) {
        guarded buf = guard_buffer(length);
        EXPECT(is_wrote(write_sizes(buf, z), MWB_SIZE_OUTSIDE, 0, 0) && is_filler(buf.bytes, length));
        unguard(buf);
    }
    return 16;
}

size_t check_sizes(void) {
    static const uint32_t most[6] = {MWB_MOST_SITES, MWB_MOST_WORDS, MWB_MOST_LINES, MWB_MOST_SETS, MWB_MOST_PEND, MWB_MOST_STALL};
    size_t calls = 0;
    for (size_t i = 0; i < 6; i++) {
        uint32_t z[6] = {1, 1, 1, 1, 1, 1};
        for (z[i] = 1; z[i] <= most[i]; z[i]++) calls += check_good_sizes(z);
        uint32_t outside[] = {0, most[i] + 1, 256 + most[i], 1u << 31, UINT32_MAX};
        for (size_t j = 0; j < sizeof outside / sizeof *outside; j++) {
            z[i] = outside[j];
            calls += check_bad_sizes(z);
        }
    }
    return calls + check_good_sizes(most);
}
