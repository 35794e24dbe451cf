/*
 * Nanoseconds a call of the deadline board beside plain C (compare/plain_board.h). Both are called by pointer, on the same boards in the same
 * order, in turn; the least round of each counts.
 */
#define _DEFAULT_SOURCE
#include "plain_board.h"
#include "seqtullo.h"

#include <stdio.h>
#include <stdlib.h>
#include <time.h>

/* Each round takes about ROUND_NS, and its calls go through the boards in turn. */
enum { BOARDS = 16, ROUNDS = 40, ROUND_NS = 2000000, SIZES = 2 };

struct side {
    struct seqtullo_board_answer (*join)(struct seqtullo_deadline *, size_t, size_t, struct seqtullo_deadline);
    struct seqtullo_board_answer (*leave)(struct seqtullo_deadline *, size_t, size_t, uint32_t);
    struct seqtullo_board_answer (*next)(const struct seqtullo_deadline *, size_t, size_t);
};

/* Not static, so that the compiler can't know which functions are called. */
struct side plain = {plain_board_join, plain_board_leave, plain_board_next};
struct side library = {seqtullo_board_join, seqtullo_board_leave, seqtullo_board_next};

static struct seqtullo_deadline boards[BOARDS][SEQTULLO_MAX_PLACES];
static const struct seqtullo_deadline newcomer = {0, 1710322300, 500000000};
static uint64_t state = 0x9e3779b97f4a7c15u;

static uint64_t any(void)
{
    state ^= state << 13;
    state ^= state >> 7;
    state ^= state << 17;
    return state;
}

/* Ids from 1 on in any order, and moments of a day with any nanosecond. Nobody has id 0. */
static void fill(void)
{
    for (size_t b = 0; b < BOARDS; b++)
        for (size_t i = 0; i < SEQTULLO_MAX_PLACES; i++) {
            size_t other = any() % (i + 1);
            boards[b][i] = boards[b][other];
            boards[b][other] = (struct seqtullo_deadline){(uint32_t)i + 1, 1710322200 + (int64_t)(any() % 86400), (uint32_t)(any() % 1000000000)};
        }
}

/* What is timed: a call, or two that undo each other. Where the last plug-in leaves, an assignment puts its place back. */
static struct seqtullo_board_answer do_next(const struct side *s, struct seqtullo_deadline *run, size_t count)
{
    return s->next(run, SEQTULLO_MAX_PLACES, count);
}

static struct seqtullo_board_answer do_join(const struct side *s, struct seqtullo_deadline *run, size_t count)
{
    return s->join(run, SEQTULLO_MAX_PLACES, count, newcomer);
}

static struct seqtullo_board_answer do_leave_last(const struct side *s, struct seqtullo_deadline *run, size_t count)
{
    struct seqtullo_deadline last = run[count - 1];
    struct seqtullo_board_answer a = s->leave(run, SEQTULLO_MAX_PLACES, count, last.id);
    run[count - 1] = last;
    return a;
}

static struct seqtullo_board_answer do_leave_and_join(const struct side *s, struct seqtullo_deadline *run, size_t count)
{
    struct seqtullo_deadline first = run[0];
    struct seqtullo_board_answer a = s->leave(run, SEQTULLO_MAX_PLACES, count, first.id);
    return a.number != 0 ? a : s->join(run, SEQTULLO_MAX_PLACES, count - 1, first);
}

static struct seqtullo_board_answer do_present(const struct side *s, struct seqtullo_deadline *run, size_t count)
{
    struct seqtullo_deadline again = newcomer;
    again.id = run[count / 2].id;
    return s->join(run, SEQTULLO_MAX_PLACES, count, again);
}

static struct seqtullo_board_answer do_absent(const struct side *s, struct seqtullo_deadline *run, size_t count)
{
    return s->leave(run, SEQTULLO_MAX_PLACES, count, newcomer.id);
}

static const struct timed {
    const char *name;
    struct seqtullo_board_answer (*call)(const struct side *, struct seqtullo_deadline *, size_t);
    uint32_t number;
} timed[] = {
    {"next", do_next, 0},
    {"join (the same one again: its place is nobody's)", do_join, 0},
    {"leave, the last; its place put back", do_leave_last, 0},
    {"leave, the first, and join again: two calls", do_leave_and_join, 0},
    {"join, refused with 23", do_present, SEQTULLO_PRESENT},
    {"leave, refused with 25", do_absent, SEQTULLO_ABSENT},
};

static double now(void)
{
    struct timespec t;
    clock_gettime(CLOCK_MONOTONIC, &t);
    return (double)t.tv_sec * 1e9 + (double)t.tv_nsec;
}

/* Nanoseconds of one of so many calls on one side. Another number than is wanted ends the program. */
static double round_of(const struct timed *t, const struct side *s, size_t count, long calls)
{
    uint32_t others = 0;
    double start = now();
    for (long i = 0; i < calls; i++)
        others |= t->call(s, boards[i % BOARDS], count).number ^ t->number;
    double each = (now() - start) / (double)calls;
    if (others != 0) {
        printf("%s: another number\n", t->name);
        exit(1);
    }
    return each;
}

static void row(const struct timed *t, size_t count)
{
    double ours = 1e18, theirs = 1e18;
    long calls = 1000;
    fill();
    for (int i = 0; i < ROUNDS; i++) {
        double o = round_of(t, &library, count, calls), p = round_of(t, &plain, count, calls);
        ours = o < ours ? o : ours;
        theirs = p < theirs ? p : theirs;
        calls = (long)(ROUND_NS / theirs) + 1;
    }
    printf("%-50s %6zu %10.1f %10.1f %6.2f\n", t->name, count, ours, theirs, ours / theirs);
}

int main(void)
{
    static const size_t sizes[SIZES] = {127, 10};
    printf("%-50s %6s %10s %10s %6s\n", "what is timed, in ns", "on", "ours", "plain C", "ratio");
    for (size_t k = 0; k < SIZES; k++)
        for (size_t i = 0; i < sizeof timed / sizeof *timed; i++)
            row(&timed[i], sizes[k]);
    return 0;
}
