/* Whether two states are the same, field by field. The bytes between fields hold nothing, so memcmp would not do. */
#ifndef MWB_SAME_H
#define MWB_SAME_H

#include "mwb.h"
#include <string.h>

static inline bool mwb_same_message(const mwb_message *a, const mwb_message *b) {
    return a->kind == b->kind && a->site == b->site && a->line == b->line && memcmp(a->dirty, b->dirty, sizeof a->dirty) == 0 &&
           memcmp(a->values, b->values, sizeof a->values) == 0;
}

static inline bool mwb_same_messages(const mwb_message *a, const mwb_message *b, size_t count) {
    for (size_t i = 0; i < count; i++) {
        if (!mwb_same_message(&a[i], &b[i])) return false;
    }
    return true;
}

static inline bool mwb_same_queue(const mwb_queue *a, const mwb_queue *b) {
    return a->count == b->count && mwb_same_messages(a->items, b->items, MWB_MOST_MESSAGES);
}

static inline bool mwb_same_site_queue(const mwb_site_queue *a, const mwb_site_queue *b) {
    return a->count == b->count && mwb_same_messages(a->items, b->items, MWB_MOST_PEND);
}

static inline bool mwb_same_cache(const mwb_cache *a, const mwb_cache *b) {
    for (size_t i = 0; i < MWB_MOST_SETS; i++) {
        const mwb_place *p = &a->sets[i].low, *q = &b->sets[i].low;
        if (p->used != q->used || p->line != q->line || memcmp(p->dirty, q->dirty, sizeof p->dirty) != 0 ||
            memcmp(p->values, q->values, sizeof p->values) != 0)
            return false;
    }
    return true;
}

static inline bool mwb_same_pends(const mwb_pends *a, const mwb_pends *b) {
    for (size_t i = 0; i < MWB_MOST_PEND; i++) {
        const mwb_entry *p = &a->entries[i], *q = &b->entries[i];
        if (p->kind != q->kind || p->line != q->line || p->word != q->word || p->tag != q->tag || p->value != q->value ||
            memcmp(p->values, q->values, sizeof p->values) != 0)
            return false;
    }
    return a->count == b->count;
}

static inline bool mwb_same_stalls(const mwb_stalls *a, const mwb_stalls *b) {
    for (size_t i = 0; i < MWB_MOST_STALL; i++) {
        const mwb_waiting *p = &a->waiting[i], *q = &b->waiting[i];
        if (p->kind != q->kind || p->line != q->line || p->word != q->word || p->tag != q->tag || p->value != q->value) return false;
    }
    return a->count == b->count;
}

static inline bool mwb_same(const mwb_system *a, const mwb_system *b) {
    for (size_t i = 0; i < MWB_MOST_SITES; i++) {
        if (!mwb_same_cache(&a->caches[i], &b->caches[i]) || !mwb_same_pends(&a->pends[i], &b->pends[i]) ||
            !mwb_same_stalls(&a->stalls[i], &b->stalls[i]) || !mwb_same_site_queue(&a->outgoing[i], &b->outgoing[i]) ||
            !mwb_same_site_queue(&a->incoming[i], &b->incoming[i]))
            return false;
    }
    return memcmp(&a->sizes, &b->sizes, sizeof a->sizes) == 0 && memcmp(a->memory, b->memory, sizeof a->memory) == 0 &&
           mwb_same_queue(&a->up, &b->up) && mwb_same_queue(&a->arrived, &b->arrived) && mwb_same_queue(&a->served, &b->served) &&
           mwb_same_queue(&a->down, &b->down);
}

#endif
