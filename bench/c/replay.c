/* The listing of a record on standard input (document 01, Replay 1 to 3), by the library through mwb.h alone. What is lent is guarded,
 * and a refused step is seen to change nothing. */
#include "expect.h"
#include "guard.h"
#include "mwb.h"
#include "mwb_same.h"

#include <inttypes.h>
#include <stdio.h>

static const char *const step_names[] = {"issue", "retry", "send", "arrive-memory", "serve", "send-back", "arrive-site", "take"};

/* The last line of a faulty record, in place of `left` (Replay 3a). */
static void print_fault(uint32_t number, size_t place) {
    printf("record %" PRIu32 " at %zu\n", number, place);
}

/* A step's line: which one it is, what it is called, the number that it gave, and its answer if it has one (Replay 2b). */
static void print_step(size_t count, uint32_t step, mwb_given given) {
    printf("%zu %s %" PRIu32, count, step_names[step], given.number);
    if (given.answered == MWB_VALUE) printf(" answer %" PRIu32 " %" PRIu32 " %" PRIu32, given.site, given.tag, given.value);
    if (given.answered == MWB_ACK) printf(" answer %" PRIu32 " %" PRIu32 " ack", given.site, given.tag);
    printf("\n");
}

/* Instructions that have no answer yet: the stalled ones, and those with a pend entry (Parts 11). */
static unsigned outstanding(const mwb_system *s) {
    unsigned count = 0;
    for (size_t site = 0; site < MWB_MOST_SITES; site++) {
        count += s->stalls[site].count;
        for (size_t i = 0; i < s->pends[site].count; i++) count += s->pends[site].entries[i].kind != MWB_VOLUNTARY;
    }
    return count;
}

static unsigned messages(const mwb_system *s) {
    unsigned count = (unsigned)(s->up.count + s->arrived.count + s->served.count + s->down.count);
    for (size_t site = 0; site < MWB_MOST_SITES; site++) count += (unsigned)(s->outgoing[site].count + s->incoming[site].count);
    return count;
}

/* A refused step answers nothing, gives 0 beside its number, and leaves the system (Numbers 17). */
static mwb_given checked_step(mwb_system *s, mwb_step_read x) {
    mwb_system before = *s;
    mwb_given given = mwb_step(s, x.step, x.site, x.instruction, x.tag, x.first, x.second);
    EXPECT(given.place == 0 && given.answered <= MWB_ACK && (given.answered == MWB_VALUE || given.value == 0));
    EXPECT(given.answered != MWB_NO_ANSWER || (given.site == 0 && given.tag == 0));
    EXPECT(given.number == MWB_DONE || (given.answered == MWB_NO_ANSWER && mwb_same(s, &before)));
    return given;
}

/* The lines of the steps, then `left` or the fault. */
static void list_steps(guarded record, size_t at, mwb_system *s) {
    for (size_t count = 1;; count++) {
        mwb_step_read x = mwb_read_step(record.bytes, record.length, at);
        if (x.number != MWB_DONE) {
            print_fault(x.number, x.place);
            return;
        }
        if (x.end) break;
        print_step(count, x.step, checked_step(s, x));
        at = x.next;
    }
    printf("left %u %u\n", outstanding(s), messages(s));
}

int main(void) {
    guarded record = guard_file(stdin), lent = guard_system();
    mwb_system *s = system_in(lent);
    mwb_sizes_read z = mwb_read_sizes(record.bytes, record.length);
    if (z.number != MWB_DONE) {
        print_fault(z.number, z.place);
    } else {
        printf("sites %" PRIu32 " words %" PRIu32 " lines %" PRIu32 " sets %" PRIu32 " pend %" PRIu32 " stall %" PRIu32 "\n", z.sites, z.words,
               z.lines, z.sets, z.pend, z.stall);
        EXPECT(mwb_fresh(s, z.sites, z.words, z.lines, z.sets, z.pend, z.stall).number == MWB_DONE);
        list_steps(record, z.next, s);
        EXPECT(mwb_sound(s) == 1);
    }
    unguard(lent);
    unguard(record);
    return 0;
}
