/*
 * The deadline board in plain C, for compare/ and bench/ alone: the rules of include/seqtullo.h, as simple as they can be written, with early exits.
 */
#ifndef PLAIN_BOARD_H
#define PLAIN_BOARD_H

#include "seqtullo.h"

#include <stdbool.h>
#include <string.h>

static struct seqtullo_board_answer plain_refusal(uint32_t number)
{
    struct seqtullo_board_answer a = {number, 0, {0, 0, 0}};
    return a;
}

/* Whether `a` stops before `b`. */
static bool plain_before(const struct seqtullo_deadline *a, const struct seqtullo_deadline *b)
{
    if (a->moment != b->moment)
        return a->moment < b->moment;
    if (a->nanosecond != b->nanosecond)
        return a->nanosecond < b->nanosecond;
    return a->id < b->id;
}

static struct seqtullo_board_answer plain_accepted(const struct seqtullo_deadline *run, size_t count)
{
    struct seqtullo_board_answer a = {0, (uint32_t)count, {0, 0, 0}};
    if (count > 0) {
        const struct seqtullo_deadline *first = run;
        for (size_t i = 1; i < count; i++)
            if (plain_before(&run[i], first))
                first = &run[i];
        a.next = *first;
    }
    return a;
}

/* The place of the first plug-in with the id, or the count. */
static size_t plain_place(const struct seqtullo_deadline *run, size_t count, uint32_t id)
{
    size_t i = 0;
    while (i < count && run[i].id != id)
        i++;
    return i;
}

/* The tests that each call begins with: a number, 0 if they are passed. */
static uint32_t plain_test(const struct seqtullo_deadline *run, size_t run_places, size_t count)
{
    if (run_places > SEQTULLO_MAX_PLACES || count > run_places)
        return SEQTULLO_OVERSIZE;
    for (size_t i = 1; i < count; i++)
        if (plain_place(run, i, run[i].id) < i)
            return SEQTULLO_PACKET;
    return 0;
}

static struct seqtullo_board_answer plain_board_join(struct seqtullo_deadline *run, size_t run_places, size_t count,
                                                     struct seqtullo_deadline joining)
{
    uint32_t number = plain_test(run, run_places, count);
    if (number != 0)
        return plain_refusal(number);
    if (joining.nanosecond > 999999999)
        return plain_refusal(SEQTULLO_NANOSECOND);
    if (plain_place(run, count, joining.id) < count)
        return plain_refusal(SEQTULLO_PRESENT);
    if (count == run_places)
        return plain_refusal(SEQTULLO_FULL);
    run[count] = joining;
    return plain_accepted(run, count + 1);
}

static struct seqtullo_board_answer plain_board_leave(struct seqtullo_deadline *run, size_t run_places, size_t count, uint32_t id)
{
    uint32_t number = plain_test(run, run_places, count);
    if (number != 0)
        return plain_refusal(number);
    size_t place = plain_place(run, count, id);
    if (place == count)
        return plain_refusal(SEQTULLO_ABSENT);
    memmove(&run[place], &run[place + 1], (count - 1 - place) * sizeof *run);
    memset(&run[count - 1], 0, sizeof *run);
    return plain_accepted(run, count - 1);
}

static struct seqtullo_board_answer plain_board_next(const struct seqtullo_deadline *run, size_t run_places, size_t count)
{
    uint32_t number = plain_test(run, run_places, count);
    if (number != 0)
        return plain_refusal(number);
    return plain_accepted(run, count);
}

#endif
