#include "drains.h"
#include "expect.h"
#include "guard.h"
#include "mwb_same.h"

/* Where a drain goes: the state after each of its steps, whether it is quiet, and the length of the bytes up to there. */
typedef struct path {
    size_t count;
    mwb_system states[MWB_MOST_DRAIN + 1];
    bool quiet[MWB_MOST_DRAIN + 1];
    size_t lengths[MWB_MOST_DRAIN + 1];
    uint8_t bytes[2 * MWB_MOST_DRAIN];
} path;

/* An issue's numbers may be anything here: what a step does not use is not looked at. */
static bool is_accepted(const mwb_system *s, uint32_t step, uint32_t site, mwb_system *after) {
    *after = *s;
    return mwb_step(after, step, site, 8, UINT32_MAX, UINT32_MAX, UINT32_MAX).number == MWB_DONE;
}

/* Nothing but an issue could be done (Drain 3b). */
static bool is_quiet(const mwb_system *s) {
    mwb_system after;
    for (uint32_t step = MWB_RETRY; step <= MWB_TAKE; step++) {
        for (uint32_t site = 0; site <= MWB_MOST_MESSAGES; site++) {
            if (is_accepted(s, step, site, &after)) return false;
        }
    }
    return true;
}

/* The step that a drain takes next: the higher kind before the lower, the lower site before the higher, the oldest message of a network (Drain 1). */
static bool first_accepted(const mwb_system *s, uint32_t *step, uint32_t *site, mwb_system *after) {
    for (*step = MWB_TAKE; *step >= MWB_RETRY; --*step) {
        bool has_site = *step == MWB_TAKE || *step == MWB_SEND || *step == MWB_RETRY;
        for (*site = 0; *site < (has_site ? s->sizes.sites : 1); ++*site) {
            if (is_accepted(s, *step, *site, after)) return true;
        }
    }
    return false;
}

/* The record bytes of these steps are their numbers, each below 128; memory's two steps have no field. */
static void follow(path *p, const mwb_system *state) {
    uint32_t step, site;
    p->count = 0;
    p->states[0] = *state;
    p->quiet[0] = is_quiet(state);
    size_t length = p->lengths[0] = 0;
    mwb_system after;
    while (first_accepted(&p->states[p->count], &step, &site, &after)) {
        EXPECT(p->count < MWB_MOST_DRAIN);
        p->bytes[length++] = (uint8_t)step;
        if (step != MWB_SERVE && step != MWB_SEND_BACK) p->bytes[length++] = (uint8_t)site;
        p->count++;
        p->states[p->count] = after;
        p->quiet[p->count] = is_quiet(&after);
        p->lengths[p->count] = length;
    }
    EXPECT(p->quiet[p->count]);
}

static bool is_refused_with(mwb_drained d, uint32_t number) {
    return d.number == number && d.quiet == 0 && d.count == 0 && d.length == 0;
}

/* The bytes are so many steps, and those lead from the one state to the other. */
static void check_read_back(const mwb_system *from, const mwb_system *to, const uint8_t *bytes, mwb_drained d) {
    guarded record = guard_bytes(bytes, d.length), lent = guard_system();
    mwb_system *s = system_in(lent);
    *s = *from;
    mwb_step_read x = mwb_read_step(record.bytes, record.length, 0);
    for (size_t i = 0; i < d.count; i++) {
        EXPECT(x.number == MWB_DONE && !x.end && x.step != MWB_ISSUE);
        EXPECT(mwb_step(s, x.step, x.site, x.instruction, x.tag, x.first, x.second).number == MWB_DONE);
        x = mwb_read_step(record.bytes, record.length, x.next);
    }
    EXPECT(x.number == MWB_DONE && x.end && mwb_same(s, to));
    unguard(lent);
    unguard(record);
}

/* A drain goes on as long as it finds a step and has budget, and writes nothing behind those steps (Drain 2, 6). */
static void check_exact(const path *p, size_t budget, size_t room) {
    guarded buf = guard_buffer(room), lent = guard_system();
    mwb_system *s = system_in(lent);
    *s = p->states[0];
    mwb_drained d = mwb_drain(s, budget, buf.bytes, room);
    size_t count = budget < p->count ? budget : p->count;
    EXPECT(d.number == MWB_DONE && d.count == count && d.quiet == p->quiet[count] && d.length == p->lengths[count]);
    EXPECT(mwb_same(s, &p->states[count]));
    EXPECT(memcmp(buf.bytes, p->bytes, d.length) == 0 && is_filler(buf.bytes + d.length, room - d.length));
    check_read_back(&p->states[0], s, buf.bytes, d);
    unguard(lent);
    unguard(buf);
}

/* With one byte less than two for each step that it may take, 11 (Drain 4). */
static void check_short(const path *p, size_t budget, size_t room) {
    guarded buf = guard_buffer(room), lent = guard_system();
    *system_in(lent) = p->states[0];
    EXPECT(is_refused_with(mwb_drain(system_in(lent), budget, buf.bytes, room), MWB_BUFFER_SHORT));
    EXPECT(mwb_same(system_in(lent), &p->states[0]) && is_filler(buf.bytes, room));
    unguard(lent);
    unguard(buf);
}

/* Gives the number of drains made. */
static size_t check_budget(const path *p, size_t budget) {
    size_t room = 2 * (budget < MWB_MOST_DRAIN ? budget : MWB_MOST_DRAIN);
    check_exact(p, budget, room);
    if (room == 0) return 1;
    check_short(p, budget, room - 1);
    return 2;
}

size_t check_edges(const mwb_system *state) {
    static path p;
    follow(&p, state);
    size_t drains = check_budget(&p, MWB_MOST_DRAIN);
    for (size_t budget = p.count == 0 ? 0 : p.count - 1; budget <= p.count + 1; budget++) drains += check_budget(&p, budget);
    return drains;
}

size_t check_every_budget(const mwb_system *state) {
    static path p;
    follow(&p, state);
    size_t drains = check_budget(&p, SIZE_MAX);
    for (size_t budget = 0; budget <= 700; budget++) drains += check_budget(&p, budget);
    return drains;
}

void check_unsound_drain(void) {
    guarded buf = guard_buffer(1), lent = guard_system();
    EXPECT(is_refused_with(mwb_drain(system_in(lent), 1, buf.bytes, 1), MWB_NOT_SOUND));
    EXPECT(is_refused_with(mwb_drain(system_in(lent), 0, buf.bytes, 1), MWB_NOT_SOUND));
    EXPECT(is_filler(buf.bytes, 1));
    unguard(lent);
    unguard(buf);
}
