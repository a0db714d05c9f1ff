/* How the tests of the C entries tell an outcome. */
#ifndef OUTCOME_H
#define OUTCOME_H

#include "guavachisel.h"

/*
 * The steps of a run, or the place of a refusal. UINT64_MAX, which is neither, where an outcome has both, where it speaks of what no entry of a run does, and
 * where `other`, what this entry doesn't speak of either, isn't 0.
 */
static uint64_t steps_or_place(const guavachisel_outcome *outcome, uint64_t other)
{
    uint64_t told = outcome->refusal == 0 ? outcome->steps : outcome->place, untold = outcome->refusal == 0 ? outcome->place : outcome->steps;

    return (other | untold | outcome->read | outcome->printed | outcome->answer | outcome->sum) == 0 ? told : UINT64_MAX;
}

#endif
