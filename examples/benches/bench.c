/* An example bench in C. It prints a line for each event; the whole text is the file `expected` beside it. */
#include "mwb.h"
#include "mwb_same.h"

#include <inttypes.h>
#include <stdio.h>

static const char *const step_names[] = {"issue", "retry", "send", "arrive-memory", "serve", "send-back", "arrive-site", "take"};

/* The number, and the processor's answer if there is one. */
static void print_given(mwb_given given) {
    printf(" %" PRIu32, given.number);
    if (given.answered == MWB_VALUE) printf(" answer %" PRIu32 " %" PRIu32 " %" PRIu32, given.site, given.tag, given.value);
    if (given.answered == MWB_ACK) printf(" answer %" PRIu32 " %" PRIu32 " ack", given.site, given.tag);
    printf("\n");
}

/* A step by its six numbers, in a record's order. */
static void step(mwb_system *s, uint32_t step, uint32_t site, uint32_t instruction, uint32_t tag, uint32_t first, uint32_t second) {
    printf("%s", step_names[step]);
    print_given(mwb_step(s, step, site, instruction, tag, first, second));
}

static void issue(mwb_system *s, uint32_t site, uint32_t tag, uint32_t instruction, uint32_t first, uint32_t second) {
    step(s, MWB_ISSUE, site, instruction, tag, first, second);
}

/* Any step but an issue; `site` is the position for the two arrivals, and not looked at for the two of memory. */
static void move(mwb_system *s, uint32_t number, uint32_t site) {
    step(s, number, site, 0, 0, 0, 0);
}

/* Carries the request of a site to memory and the reply back. */
static void trip(mwb_system *s, uint32_t site) {
    move(s, MWB_SEND, site);
    move(s, MWB_ARRIVE_MEMORY, 0);
    move(s, MWB_SERVE, 0);
    move(s, MWB_SEND_BACK, 0);
    move(s, MWB_ARRIVE_SITE, 0);
    move(s, MWB_TAKE, site);
}

/* Steps that are refused; none of them changes the system. */
static void refusals(mwb_system *s) {
    mwb_system before = *s;
    issue(s, 2, 8, MWB_LOADL, 0, 0);  /* there are sites 0 and 1 */
    issue(s, 0, 8, MWB_LOADL, 8, 0);  /* there are addresses 0 to 7 */
    issue(s, 1, 8, MWB_LOADL, 0, 0);  /* it cannot pass the Storel of its address */
    move(s, MWB_ARRIVE_MEMORY, 0);    /* nothing was sent yet */
    mwb_given given = mwb_step(s, 8, 0, 0, 0, 0, 0);
    printf("record %" PRIu32 " at %zu\n", given.number, given.place);
    printf("unchanged %d\n", mwb_same(s, &before));
}

/* A drain with a budget of 656 asks for a buffer of twice as many bytes. */
static size_t drain(mwb_system *s, uint8_t *buf, size_t length) {
    mwb_drained drained = mwb_drain(s, MWB_MOST_DRAIN, buf, length);
    printf("drain %" PRIu32 " count %zu quiet %" PRIu32 " length %zu\n", drained.number, drained.count, drained.quiet, drained.length);
    return drained.length;
}

/* Reads the steps of a record, one by one from an offset, and takes each. */
static void read_back(mwb_system *s, const uint8_t *bytes, size_t length, size_t at) {
    mwb_step_read read = mwb_read_step(bytes, length, at);
    while (read.number == MWB_DONE && !read.end) {
        printf("read ");
        for (; at < read.next; at++) printf("%02x ", bytes[at]);
        step(s, read.step, read.site, read.instruction, read.tag, read.first, read.second);
        read = mwb_read_step(bytes, length, at);
    }
    printf("end %" PRIu32 "\n", read.number);
}

static void print_wrote(mwb_wrote wrote) {
    printf("write %" PRIu32 " next %zu\n", wrote.number, wrote.next);
}

/* Writes a record of the sizes and one step, and reads it back. A second step has no room. */
static void write_and_read(mwb_system *s) {
    uint8_t buf[11];
    print_wrote(mwb_write_sizes(buf, sizeof buf, 2, 2, 4, 1, 1, 1));
    print_wrote(mwb_write_step(buf, sizeof buf, 6, MWB_ISSUE, 0, MWB_LOADL, 7, 3, 0));
    print_wrote(mwb_write_step(buf, sizeof buf, 11, MWB_SERVE, 0, 0, 0, 0, 0));
    mwb_sizes_read z = mwb_read_sizes(buf, sizeof buf);
    printf("sites %" PRIu32 " words %" PRIu32 " lines %" PRIu32 " sets %" PRIu32 " pend %" PRIu32 " stall %" PRIu32 "\n", z.sites, z.words,
           z.lines, z.sets, z.pend, z.stall);
    mwb_fresh(s, z.sites, z.words, z.lines, z.sets, z.pend, z.stall);
    read_back(s, buf, sizeof buf, z.next);
}

int main(void) {
    static mwb_system s;
    static uint8_t buf[2 * MWB_MOST_DRAIN];
    printf("fresh");
    print_given(mwb_fresh(&s, 2, 2, 4, 1, 1, 1));
    issue(&s, 0, 7, MWB_LOADL, 3, 0);
    trip(&s, 0);
    issue(&s, 0, 8, MWB_LOADL, 2, 0);   /* a hit: line 1 is cached now */
    issue(&s, 0, 9, MWB_STOREL, 2, 5);  /* another, which marks the word Dirty */
    issue(&s, 0, 10, MWB_COMMIT, 2, 0); /* so a write-back is queued */
    issue(&s, 1, 7, MWB_STOREL, 0, 6);  /* a fetch is queued at site 1 */
    refusals(&s);
    mwb_system copy = s;
    drain(&s, buf, sizeof buf - 1);
    printf("unchanged %d\n", mwb_same(&s, &copy));
    size_t length = drain(&s, buf, sizeof buf);
    read_back(&copy, buf, length, 0);
    printf("same %d\n", mwb_same(&s, &copy));
    write_and_read(&s);
    printf("sound %" PRIu32 "\n", mwb_sound(&s));
    return 0;
}
