/* The C side of mwb_pkg.sv: the systems behind its chandles, and the calls of mwb.h with their results in `output` arguments. Verilator
 * compiles it as C++, so it is both. */
#include "mwb.h"
#include "mwb_same.h"
#include "svdpi.h"

#include <stdio.h>
#include <stdlib.h>

/* SystemVerilog's `int unsigned` and `longint unsigned`. */
typedef unsigned int sv_int;
typedef unsigned long long sv_long;

static void stop(const char *why) {
    fprintf(stderr, "mwb_dpi: %s\n", why);
    abort();
}

/* The array's elements, each of some bytes, of which the bench lends so many. */
static void *lent_of(const svOpenArrayHandle array, sv_long count, sv_long bytes) {
    void *elements = svGetArrayPtr(array);
    if (elements == NULL || count > (sv_long)svSizeOfArray(array) / bytes) stop("the array has fewer elements than are lent, or is not laid out as C's");
    return elements;
}

static uint8_t *lent(const svOpenArrayHandle array, sv_long length) {
    return (uint8_t *)lent_of(array, length, sizeof(uint8_t));
}

static const uint32_t *lent_numbers(const svOpenArrayHandle array, sv_long count) {
    return (const uint32_t *)lent_of(array, count, sizeof(uint32_t));
}

#ifdef __cplusplus
extern "C" {
#endif

void *mwb_sv_new(void) {
    void *s = calloc(1, sizeof(mwb_system));
    if (s == NULL) stop("no memory for a system");
    return s;
}

void *mwb_sv_copy(const void *s) {
    mwb_system *copy = (mwb_system *)mwb_sv_new();
    *copy = *(const mwb_system *)s;
    return copy;
}

void mwb_sv_free(void *s) {
    free(s);
}

sv_int mwb_sv_same(const void *s, const void *other) {
    return mwb_same((const mwb_system *)s, (const mwb_system *)other);
}

sv_int mwb_sv_sound(const void *s) {
    return mwb_sound((const mwb_system *)s);
}

void mwb_sv_fresh(void *s, sv_int sites, sv_int words, sv_int lines, sv_int sets, sv_int pend, sv_int stall, sv_int *number) {
    *number = mwb_fresh((mwb_system *)s, sites, words, lines, sets, pend, stall).number;
}

void mwb_sv_step(void *s, sv_int step, sv_int site, sv_int instruction, sv_int tag, sv_int first, sv_int second, sv_int *number,
                 sv_long *place, sv_int *answered, sv_int *answer_site, sv_int *answer_tag, sv_int *value) {
    mwb_given given = mwb_step((mwb_system *)s, step, site, instruction, tag, first, second);
    *number = given.number;
    *place = given.place;
    *answered = given.answered;
    *answer_site = given.site;
    *answer_tag = given.tag;
    *value = given.value;
}

void mwb_sv_drain(void *s, sv_long budget, const svOpenArrayHandle buffer, sv_long length, sv_int *number, sv_int *quiet, sv_long *count,
                  sv_long *written) {
    mwb_drained drained = mwb_drain((mwb_system *)s, budget, lent(buffer, length), length);
    *number = drained.number;
    *quiet = drained.quiet;
    *count = drained.count;
    *written = drained.length;
}

void mwb_sv_read_sizes(const svOpenArrayHandle bytes, sv_long length, sv_int *number, sv_long *place, sv_long *next, sv_int *sites,
                       sv_int *words, sv_int *lines, sv_int *sets, sv_int *pend, sv_int *stall) {
    mwb_sizes_read read = mwb_read_sizes(lent(bytes, length), length);
    *number = read.number;
    *place = read.place;
    *next = read.next;
    *sites = read.sites;
    *words = read.words;
    *lines = read.lines;
    *sets = read.sets;
    *pend = read.pend;
    *stall = read.stall;
}

void mwb_sv_read_step(const svOpenArrayHandle bytes, sv_long length, sv_long at, sv_int *number, sv_int *at_end, sv_long *place,
                      sv_long *next, sv_int *step, sv_int *site, sv_int *instruction, sv_int *tag, sv_int *first, sv_int *second) {
    mwb_step_read read = mwb_read_step(lent(bytes, length), length, at);
    *number = read.number;
    *at_end = read.end;
    *place = read.place;
    *next = read.next;
    *step = read.step;
    *site = read.site;
    *instruction = read.instruction;
    *tag = read.tag;
    *first = read.first;
    *second = read.second;
}

static void give_wrote(mwb_wrote wrote, sv_int *number, sv_long *place, sv_long *next) {
    *number = wrote.number;
    *place = wrote.place;
    *next = wrote.next;
}

void mwb_sv_write_sizes(const svOpenArrayHandle buffer, sv_long length, sv_int sites, sv_int words, sv_int lines, sv_int sets, sv_int pend,
                        sv_int stall, sv_int *number, sv_long *place, sv_long *next) {
    give_wrote(mwb_write_sizes(lent(buffer, length), length, sites, words, lines, sets, pend, stall), number, place, next);
}

void mwb_sv_write_step(const svOpenArrayHandle buffer, sv_long length, sv_long at, sv_int step, sv_int site, sv_int instruction, sv_int tag,
                       sv_int first, sv_int second, sv_int *number, sv_long *place, sv_long *next) {
    give_wrote(mwb_write_step(lent(buffer, length), length, at, step, site, instruction, tag, first, second), number, place, next);
}

void mwb_sv_write_record(const svOpenArrayHandle buffer, sv_long length, sv_int sites, sv_int words, sv_int lines, sv_int sets, sv_int pend,
                         sv_int stall, const svOpenArrayHandle numbers, sv_long count, sv_int *number, sv_long *place, sv_long *next) {
    give_wrote(mwb_write_record(lent(buffer, length), length, sites, words, lines, sets, pend, stall, lent_numbers(numbers, count), count), number,
               place, next);
}

#ifdef __cplusplus
}
#endif
