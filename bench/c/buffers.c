/* buffers RECORD...: drains and writes at the edges of their buffers, which are guarded. Drains start from each state that a record comes
 * through; from its last one, with every budget from 0 to 700. */
#include "drains.h"
#include "expect.h"
#include "guard.h"
#include "writes.h"

static mwb_system fresh(guarded record, size_t *at) {
    mwb_system s = {0};
    mwb_sizes_read z = mwb_read_sizes(record.bytes, record.length);
    EXPECT(z.number == MWB_DONE);
    EXPECT(mwb_fresh(&s, z.sites, z.words, z.lines, z.sets, z.pend, z.stall).number == MWB_DONE);
    *at = z.next;
    return s;
}

static size_t check_record(guarded record) {
    size_t at, drains = 0;
    mwb_system s = fresh(record, &at);
    for (;;) {
        mwb_step_read x = mwb_read_step(record.bytes, record.length, at);
        if (x.number != MWB_DONE || x.end) break;
        drains += check_edges(&s);
        mwb_step(&s, x.step, x.site, x.instruction, x.tag, x.first, x.second);
        at = x.next;
    }
    return drains + check_every_budget(&s);
}

/* Where the bytes end the reader of a step says so; past that it gives 10 at the offset it was asked for (Record 7). With more than 65,536 bytes, 13. */
static void check_reader_past_end(void) {
    static const uint8_t bytes[MWB_MOST_BYTES + 1];
    guarded record = guard_bytes(bytes, 3), most = guard_bytes(bytes, MWB_MOST_BYTES), longer = guard_bytes(bytes, MWB_MOST_BYTES + 1);
    mwb_step_read x = mwb_read_step(record.bytes, 3, 3);
    EXPECT(x.number == MWB_DONE && x.end == 1 && x.place == 0 && x.next == 0);
    static const size_t beyond[] = {4, 4096, MWB_MOST_BYTES + 1, SIZE_MAX};
    for (size_t i = 0; i < sizeof beyond / sizeof *beyond; i++) {
        x = mwb_read_step(record.bytes, 3, beyond[i]);
        EXPECT(x.number == MWB_NO_RECORD && x.end == 0 && x.place == beyond[i] && x.next == 0);
    }
    EXPECT(mwb_read_step(most.bytes, most.length, most.length).end == 1);
    x = mwb_read_step(longer.bytes, longer.length, longer.length);
    EXPECT(x.number == MWB_RECORD_LONG && x.end == 0 && x.place == MWB_MOST_BYTES && x.next == 0);
    mwb_sizes_read z = mwb_read_sizes(longer.bytes, longer.length);
    EXPECT(z.number == MWB_RECORD_LONG && z.place == MWB_MOST_BYTES && z.next == 0 && z.sites == 0 && z.stall == 0);
    z = mwb_read_sizes(record.bytes, 0);
    EXPECT(z.number == MWB_NO_RECORD && z.place == 0 && z.next == 0);
    unguard(longer);
    unguard(most);
    unguard(record);
}

int main(int argc, char **argv) {
    size_t drains = 0;
    for (int i = 1; i < argc; i++) {
        FILE *file = fopen(argv[i], "rb");
        EXPECT(file != NULL);
        guarded record = guard_file(file);
        fclose(file);
        drains += check_record(record);
        unguard(record);
    }
    check_unsound_drain();
    check_reader_past_end();
    size_t sizes = check_sizes(), steps = check_steps(), whole = check_whole();
    printf("%d records, %zu drains, %zu calls with sizes, %zu writes of steps, %zu of whole records: as document 01 says\n", argc - 1, drains,
           sizes, steps, whole);
    return 0;
}
