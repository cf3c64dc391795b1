/* A model of a four-core block's caches under the Multiword Base protocol, for benches in C and C++. Link with libmwb.a.
 *
 * The bench holds a system and names each step; the library takes the step, or refuses it by number and changes nothing. The library is
 * proved to do what document 01 asks. A name with a number, as Handling 4, is a section of that document and a sentence there.
 *
 * What is assumed of the caller, and looked at by nobody:
 *   - Each pointer points to an object of its type, and a `bool` of a system holds 0 or 1; so start with `mwb_system s = {0};`. Every other
 *     field may hold any number: mwb_sound, mwb_step and mwb_drain look whether the state is sound.
 *   - `buf` and `bytes` point to `length` bytes, `numbers` to `count` numbers. With a length or a count of 0 the pointer must still be one into an
 *     object or right past its end, and not null; nothing is touched.
 *   - A lent buffer overlaps neither a lent system nor lent numbers.
 *
 * The library keeps nothing between calls and allocates nothing; a call takes some 48 KB of stack at most. Threads may call it at once with systems and buffers of their own; what
 * is lent to a call must not be used by another thread meanwhile.
 */
#ifndef MWB_H
#define MWB_H

#include <assert.h>
#include <stdbool.h>
#include <stddef.h>
#include <stdint.h>

#ifdef __cplusplus
extern "C" {
#endif

/* ---- Numbers ---- */

/* The most that each of the six sizes may be; the least is 1. */
#define MWB_MOST_SITES 4
#define MWB_MOST_WORDS 4
#define MWB_MOST_LINES 16
#define MWB_MOST_SETS 8
#define MWB_MOST_PEND 5
#define MWB_MOST_STALL 8

/* No more messages than this are ever under way, and each queue has a place for all that can stand in it (Parts 8). */
#define MWB_MOST_MESSAGES (MWB_MOST_SITES * MWB_MOST_PEND)

/* No drain takes more steps (Drain 5). */
#define MWB_MOST_DRAIN 656

/* A record is at most so many bytes long. */
#define MWB_MOST_BYTES 65536

enum mwb_number {
    MWB_DONE = 0,
    MWB_NOT_SOUND = 1,          /* the lent state fails the check of mwb_sound */
    MWB_NO_SUCH_SITE = 2,       /* the system has fewer sites */
    MWB_ADDRESS_PAST_LAST = 4,  /* memory has no such address */
    MWB_TAG_OUTSTANDING = 5,    /* an instruction of this site without an answer has that tag */
    MWB_MAY_NOT_ISSUE = 6,      /* an outstanding instruction of this site is in the way */
    MWB_STALL_FULL = 7,         /* the instruction has to wait, and no stall entry is free */
    MWB_NOTHING_THERE = 8,      /* nothing stands in the queue, or at that position of the network */
    MWB_MUST_STILL_WAIT = 9,    /* a retry whose instruction has to wait on */
    MWB_NO_RECORD = 10,         /* bytes that are no record, or numbers that are no step; with a place */
    MWB_BUFFER_SHORT = 11,      /* too few bytes were lent */
    MWB_SIZE_OUTSIDE = 12,      /* a size of 0, or above its most */
    MWB_RECORD_LONG = 13        /* more than MWB_MOST_BYTES bytes */
};

enum mwb_step_number {
    MWB_ISSUE = 0,          /* (site, instruction) */
    MWB_RETRY = 1,          /* (site) the first stalled instruction is tried again; refused, and left there, where it has to wait on (Steps 2) */
    MWB_SEND = 2,           /* (site) the first of the site's outgoing queue goes to the end of the up network (Steps 3) */
    MWB_ARRIVE_MEMORY = 3,  /* (position) a message leaves the up network for the end of memory's incoming queue (Steps 4) */
    MWB_SERVE = 4,          /* memory does what its first request asks, and its reply joins the outgoing queue (Steps 5) */
    MWB_SEND_BACK = 5,      /* the first of memory's outgoing queue goes to the end of the down network (Steps 6) */
    MWB_ARRIVE_SITE = 6,    /* (position) a message leaves the down network for the incoming queue of its own site (Steps 7) */
    MWB_TAKE = 7            /* (site) the site takes the first reply that came in (Steps 8) */
};

enum mwb_instruction_number {
    MWB_LOADL = 0,      /* (address) */
    MWB_STOREL = 1,     /* (address, value) */
    MWB_COMMIT = 2,     /* (address) */
    MWB_RECONCILE = 3,  /* (address) */
    MWB_FENCE_RR = 4,   /* the fences: (first address, second address) */
    MWB_FENCE_RW = 5,
    MWB_FENCE_WR = 6,
    MWB_FENCE_WW = 7
};

/* ---- The state ----
 * What is past a count or a size, and each field without a meaning for its kind, is 0 in a sound state (Parts 9i). */

typedef struct mwb_sizes {
    uint8_t sites, words, lines, sets, pend, stall;
} mwb_sizes;

enum mwb_message_kind { MWB_FETCH = 0, MWB_WRITE_BACK = 1, MWB_FETCH_REPLY = 2, MWB_ACKNOWLEDGEMENT = 3 };

typedef struct mwb_message {
    uint8_t kind, site, line;
    bool dirty[MWB_MOST_WORDS];  /* a write-back's marks */
    uint32_t values[MWB_MOST_WORDS];
} mwb_message;

/* The kind of an entry for an instruction is the instruction's number; a displaced line's entry has this one. */
#define MWB_VOLUNTARY 4

typedef struct mwb_entry {
    uint8_t kind, line, word;
    uint32_t tag;
    uint32_t value;                   /* a Storel's */
    uint32_t values[MWB_MOST_WORDS];  /* a Commit's line */
} mwb_entry;

/* In a stall queue; a fence never waits. */
typedef struct mwb_waiting {
    uint8_t kind, line, word;
    uint32_t tag;
    uint32_t value;
} mwb_waiting;

typedef struct mwb_place {
    bool used;
    uint8_t line;
    bool dirty[MWB_MOST_WORDS];
    uint32_t values[MWB_MOST_WORDS];
} mwb_place;

/* A set has room for one line; a line's set is its number modulo the sets (Parts 2a). */
typedef struct mwb_cache_set {
    mwb_place low;  /* its one place */
} mwb_cache_set;

typedef struct mwb_cache {
    mwb_cache_set sets[MWB_MOST_SETS];
} mwb_cache;

/* Oldest first. */
typedef struct mwb_pends {
    mwb_entry entries[MWB_MOST_PEND];
    uint8_t count;
} mwb_pends;

/* The head first, here and in the queues; of a network, the first to enter it. */
typedef struct mwb_stalls {
    mwb_waiting waiting[MWB_MOST_STALL];
    uint8_t count;
} mwb_stalls;

typedef struct mwb_site_queue {
    mwb_message items[MWB_MOST_PEND];
    uint8_t count;
} mwb_site_queue;

typedef struct mwb_queue {
    mwb_message items[MWB_MOST_MESSAGES];
    uint8_t count;
} mwb_queue;

typedef struct mwb_line {
    uint32_t values[MWB_MOST_WORDS];
} mwb_line;

typedef struct mwb_system {
    mwb_sizes sizes;
    mwb_line memory[MWB_MOST_LINES];
    mwb_cache caches[MWB_MOST_SITES];
    mwb_pends pends[MWB_MOST_SITES];
    mwb_stalls stalls[MWB_MOST_SITES];
    mwb_site_queue outgoing[MWB_MOST_SITES];
    mwb_site_queue incoming[MWB_MOST_SITES];
    mwb_queue up;       /* the network to memory */
    mwb_queue arrived;  /* memory's incoming queue */
    mwb_queue served;   /* memory's outgoing queue */
    mwb_queue down;     /* the network to the sites */
} mwb_system;

/* ---- Results ----
 * `number` is one of enum mwb_number. With any but 0 the call was refused: every lent byte and field is as before (but see mwb_fresh; the bytes
 * between the fields of a system hold nothing and may change) and the rest of the result is 0, but for `place` with 10 and with 13, which gives 65,536 (Numbers 17). Of the numbers that hold, the first in the order
 * given at the call is the one given back. */

enum mwb_answered { MWB_NO_ANSWER = 0, MWB_VALUE = 1, MWB_ACK = 2 };

typedef struct mwb_given {
    uint32_t number;
    size_t place;
    uint32_t answered;  /* one of enum mwb_answered: a Loadl is answered by a value, any other instruction by an acknowledgement */
    uint32_t site;      /* the answer's site and tag; 0 without an answer */
    uint32_t tag;
    uint32_t value;     /* 0 but for a Loadl's answer */
} mwb_given;

typedef struct mwb_drained {
    uint32_t number;
    uint32_t quiet;  /* 1 where nothing but an issue could be done now, else 0 */
    size_t count;    /* the steps taken */
    size_t length;   /* the length of their bytes */
} mwb_drained;

typedef struct mwb_sizes_read {
    uint32_t number;
    size_t place;
    size_t next;  /* the offset past the sizes */
    uint32_t sites, words, lines, sets, pend, stall;
} mwb_sizes_read;

typedef struct mwb_step_read {
    uint32_t number;
    uint32_t end;  /* 1 at the record's length, and then all else is 0 */
    size_t place;
    size_t next;   /* the offset past the step */
    uint32_t step, site, instruction, tag, first, second;  /* as for mwb_step; 0 where the step has none */
} mwb_step_read;

typedef struct mwb_wrote {
    uint32_t number;
    size_t place;
    size_t next;  /* the offset past what was written */
} mwb_wrote;

/* ---- Rows ---- */

/* A step as one row of numbers, in the order of mwb_step: the type for every call that takes steps as a list. */
typedef struct mwb_row {
    uint32_t step, site, instruction, tag, first, second;
} mwb_row;

/* ---- Calls ---- */

/* Makes a fresh system: 0 throughout memory, and nothing cached, pending, stalled or under way (Parts 7). Refused with 12 where a size is
 * not within its limits; the lent system is then 0 in every field, and mwb_sound says 0 of it (Numbers 18). */
mwb_given mwb_fresh(mwb_system *s, uint32_t sites, uint32_t words, uint32_t lines, uint32_t sets, uint32_t pend, uint32_t stall);

/* 1 where the state is sound, else 0. From a fresh system no step or drain leads to one that is not (Parts 12). */
uint32_t mwb_sound(const mwb_system *s);

/* Takes one step of the lent system, which answers one instruction at most: by site and tag, and with the value that a Loadl read
 * (Steps 11). The numbers are those of a record, in its order:
 *   step         one of enum mwb_step_number
 *   site         the site; for MWB_ARRIVE_MEMORY and MWB_ARRIVE_SITE the position in the network
 *   instruction  an issue's, one of enum mwb_instruction_number
 *   tag          an issue's
 *   first        an issue's address, or a fence's first
 *   second       a Storel's value, or a fence's second address
 * What a step or an instruction does not use is not looked at. Looked at in this order:
 *   each          1; then 10 with place 0 for a step above 7, and with place 2 for an instruction above 7 of an issue
 *                 (the place counts the six numbers above from 0)
 *   issue         2, 4 (for either address of a fence), 5, 6, 7
 *   retry         2, 8, 9
 *   send, take    2, 8
 *   the others    8 */
mwb_given mwb_step(mwb_system *s, uint32_t step, uint32_t site, uint32_t instruction, uint32_t tag, uint32_t first, uint32_t second);

/* Takes steps until nothing but an issue could be done, or until it has taken `budget` of them. Each is the first that succeeds of: take,
 * arrive-site, send-back, serve, arrive-memory, send, retry, from site 0 up and at position 0 alone (Drain 1, 2). Their bytes, as in a record,
 * stand at the buffer's start; the bytes behind them are as before (Drain 3, 6). Looked at in this order: 1; 11, where the buffer has fewer than
 * 2 * budget bytes and fewer than 2 * MWB_MOST_DRAIN (Drain 4). */
mwb_drained mwb_drain(mwb_system *s, size_t budget, uint8_t *buf, size_t length);

/* Reads the six sizes at a record's start; mwb_read_step goes on at `next`. Looked at in this order: 13, 10, 12; so a fault in the sixth size
 * comes before a limit of the first. The place of 10 is where the faulty number begins: it is unfinished, has a needless byte, is above
 * 4,294,967,295, or is above 7 as the number of a step or an instruction; of a number that is missing, the place is `length` (Record 6). */
mwb_sizes_read mwb_read_sizes(const uint8_t *bytes, size_t length);

/* Reads the step at the offset `at`. A site, an address or a position that the system has not is no fault here; mwb_step refuses it (Record 5).
 * With `at` equal to `length` the result is `end`; with a larger one, 10 with the place `at` (Record 7). Looked at in this order: 13, 10. */
mwb_step_read mwb_read_step(const uint8_t *bytes, size_t length, size_t at);

/* Writes the sizes at the buffer's start. Looked at in this order: 12; 13, which six sizes never come to; 11, where they do not fit into the
 * buffer (Numbers 11a, 16). */
mwb_wrote mwb_write_sizes(uint8_t *buf, size_t length, uint32_t sites, uint32_t words, uint32_t lines, uint32_t sets, uint32_t pend,
                          uint32_t stall);

/* Writes a step at the offset `at`; its numbers are those of mwb_step. Looked at in this order: 10 as mwb_step does; 13, where the step would
 * end past 65,536; 11, where it would end past the buffer. */
mwb_wrote mwb_write_step(uint8_t *buf, size_t length, size_t at, uint32_t step, uint32_t site, uint32_t instruction, uint32_t tag,
                         uint32_t first, uint32_t second);

/* Writes a whole record at the buffer's start, all of it or nothing: its sizes, and a step for each six of the numbers, in the order of mwb_step.
 * `next` is the record's length. Looked at in this order: 12; 10, whose place is the number, counted from 0, of the first row that names no step: six
 * numbers as mwb_step would refuse them with 10, or fewer than six at the end; 13; 11, where the buffer is shorter than the record. */
mwb_wrote mwb_write_record(uint8_t *buf, size_t length, uint32_t sites, uint32_t words, uint32_t lines, uint32_t sets, uint32_t pend,
                           uint32_t stall, const uint32_t *numbers, size_t count);

/* The same of so many rows. */
static inline mwb_wrote mwb_write_rows(uint8_t *buf, size_t length, uint32_t sites, uint32_t words, uint32_t lines, uint32_t sets, uint32_t pend,
                                       uint32_t stall, const mwb_row *rows, size_t count) {
    return mwb_write_record(buf, length, sites, words, lines, sets, pend, stall, (const uint32_t *)rows, 6 * count);
}

/* ---- Layout ----
 * The sizes and offsets that the library was built with, on a machine of 64 bits; a compiler that lays a struct out otherwise stops here. */

#define MWB_SIZE(type, size) static_assert(sizeof(type) == (size), #type " is laid out otherwise in the library")
#define MWB_AT(type, field, at) static_assert(offsetof(type, field) == (at), #type "." #field " stands elsewhere in the library")

MWB_SIZE(bool, 1);
MWB_SIZE(size_t, 8);

MWB_SIZE(mwb_sizes, 6);
MWB_AT(mwb_sizes, sites, 0);
MWB_AT(mwb_sizes, words, 1);
MWB_AT(mwb_sizes, lines, 2);
MWB_AT(mwb_sizes, sets, 3);
MWB_AT(mwb_sizes, pend, 4);
MWB_AT(mwb_sizes, stall, 5);

MWB_SIZE(mwb_message, 24);
MWB_AT(mwb_message, kind, 0);
MWB_AT(mwb_message, site, 1);
MWB_AT(mwb_message, line, 2);
MWB_AT(mwb_message, dirty, 3);
MWB_AT(mwb_message, values, 8);

MWB_SIZE(mwb_entry, 28);
MWB_AT(mwb_entry, kind, 0);
MWB_AT(mwb_entry, line, 1);
MWB_AT(mwb_entry, word, 2);
MWB_AT(mwb_entry, tag, 4);
MWB_AT(mwb_entry, value, 8);
MWB_AT(mwb_entry, values, 12);

MWB_SIZE(mwb_waiting, 12);
MWB_AT(mwb_waiting, kind, 0);
MWB_AT(mwb_waiting, line, 1);
MWB_AT(mwb_waiting, word, 2);
MWB_AT(mwb_waiting, tag, 4);
MWB_AT(mwb_waiting, value, 8);

MWB_SIZE(mwb_place, 24);
MWB_AT(mwb_place, used, 0);
MWB_AT(mwb_place, line, 1);
MWB_AT(mwb_place, dirty, 2);
MWB_AT(mwb_place, values, 8);

MWB_SIZE(mwb_cache_set, 24);
MWB_AT(mwb_cache_set, low, 0);

MWB_SIZE(mwb_cache, 192);
MWB_AT(mwb_cache, sets, 0);

MWB_SIZE(mwb_pends, 144);
MWB_AT(mwb_pends, entries, 0);
MWB_AT(mwb_pends, count, 140);

MWB_SIZE(mwb_stalls, 100);
MWB_AT(mwb_stalls, waiting, 0);
MWB_AT(mwb_stalls, count, 96);

MWB_SIZE(mwb_site_queue, 124);
MWB_AT(mwb_site_queue, items, 0);
MWB_AT(mwb_site_queue, count, 120);

MWB_SIZE(mwb_queue, 484);
MWB_AT(mwb_queue, items, 0);
MWB_AT(mwb_queue, count, 480);

MWB_SIZE(mwb_line, 16);
MWB_AT(mwb_line, values, 0);

MWB_SIZE(mwb_system, 4936);
MWB_AT(mwb_system, sizes, 0);
MWB_AT(mwb_system, memory, 8);
MWB_AT(mwb_system, caches, 264);
MWB_AT(mwb_system, pends, 1032);
MWB_AT(mwb_system, stalls, 1608);
MWB_AT(mwb_system, outgoing, 2008);
MWB_AT(mwb_system, incoming, 2504);
MWB_AT(mwb_system, up, 3000);
MWB_AT(mwb_system, arrived, 3484);
MWB_AT(mwb_system, served, 3968);
MWB_AT(mwb_system, down, 4452);

MWB_SIZE(mwb_given, 32);
MWB_AT(mwb_given, number, 0);
MWB_AT(mwb_given, place, 8);
MWB_AT(mwb_given, answered, 16);
MWB_AT(mwb_given, site, 20);
MWB_AT(mwb_given, tag, 24);
MWB_AT(mwb_given, value, 28);

MWB_SIZE(mwb_drained, 24);
MWB_AT(mwb_drained, number, 0);
MWB_AT(mwb_drained, quiet, 4);
MWB_AT(mwb_drained, count, 8);
MWB_AT(mwb_drained, length, 16);

MWB_SIZE(mwb_sizes_read, 48);
MWB_AT(mwb_sizes_read, number, 0);
MWB_AT(mwb_sizes_read, place, 8);
MWB_AT(mwb_sizes_read, next, 16);
MWB_AT(mwb_sizes_read, sites, 24);
MWB_AT(mwb_sizes_read, words, 28);
MWB_AT(mwb_sizes_read, lines, 32);
MWB_AT(mwb_sizes_read, sets, 36);
MWB_AT(mwb_sizes_read, pend, 40);
MWB_AT(mwb_sizes_read, stall, 44);

MWB_SIZE(mwb_step_read, 48);
MWB_AT(mwb_step_read, number, 0);
MWB_AT(mwb_step_read, end, 4);
MWB_AT(mwb_step_read, place, 8);
MWB_AT(mwb_step_read, next, 16);
MWB_AT(mwb_step_read, step, 24);
MWB_AT(mwb_step_read, site, 28);
MWB_AT(mwb_step_read, instruction, 32);
MWB_AT(mwb_step_read, tag, 36);
MWB_AT(mwb_step_read, first, 40);
MWB_AT(mwb_step_read, second, 44);

MWB_SIZE(mwb_wrote, 24);
MWB_AT(mwb_wrote, number, 0);
MWB_AT(mwb_wrote, place, 8);
MWB_AT(mwb_wrote, next, 16);

MWB_SIZE(mwb_row, 24);
MWB_AT(mwb_row, step, 0);
MWB_AT(mwb_row, site, 4);
MWB_AT(mwb_row, instruction, 8);
MWB_AT(mwb_row, tag, 12);
MWB_AT(mwb_row, first, 16);
MWB_AT(mwb_row, second, 20);

#undef MWB_SIZE
#undef MWB_AT

#ifdef __cplusplus
}
#endif

#endif
