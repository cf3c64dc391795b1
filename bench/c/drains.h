/* Document 01, Drain 1 to 6: each drain held to its definition, one step of the library at a time. */
#ifndef DRAINS_H
#define DRAINS_H

#include "mwb.h"

/* Drains the state with budgets around the number of steps that there are to take, and with 656. Each drain is made in an exact buffer and in one
 * that is a byte short. Gives the number of drains made. */
size_t check_edges(const mwb_system *state);

/* The same with every budget from 0 to 700, and with the largest. */
size_t check_every_budget(const mwb_system *state);

/* A state that is not sound: 1, in a short buffer too. */
void check_unsound_drain(void);

#endif
