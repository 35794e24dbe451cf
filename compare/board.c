/*
 * Random calls of the deadline board, each through the library and in plain C (plain_board.h): the answers and every place of the run have to be
 * the same. In turn, the library's run ends at a page that can't be touched or begins after one, and `next` gets pages that can't be written.
 */
#define _GNU_SOURCE
#include "plain_board.h"
#include "seqtullo.h"

#include <inttypes.h>
#include <stdio.h>
#include <stdlib.h>
#include <sys/mman.h>
#include <unistd.h>

/* Runs have up to MOST places, so that some are too long. */
enum { MOST = 160, NUMBERS = 32, SHOWN = 20 };
enum { JOIN, LEAVE, NEXT, FUNCTIONS };

static const char *const names[FUNCTIONS] = {"join", "leave", "next"};
static uint64_t state;

static uint64_t next(void)
{
    state ^= state << 13;
    state ^= state >> 7;
    state ^= state << 17;
    return state * 0x2545f4914f6cdd1du;
}

static uint64_t below(uint64_t n)
{
    return (next() >> 32) % n;
}

/* `room` bytes between two pages that can't be touched, and the same bytes again where they can't be written. */
static uint8_t *front, *front_to_read;
static size_t room;

static uint8_t *guarded(int file, int protection)
{
    size_t page = (size_t)sysconf(_SC_PAGESIZE);
    uint8_t *ground = mmap(NULL, room + 2 * page, PROT_NONE, MAP_PRIVATE | MAP_ANONYMOUS, -1, 0);
    if (ground == MAP_FAILED || mmap(ground + page, room, protection, MAP_SHARED | MAP_FIXED, file, 0) == MAP_FAILED)
        exit(2);
    return ground + page;
}

static void make_room(void)
{
    size_t page = (size_t)sysconf(_SC_PAGESIZE);
    int file = memfd_create("board", 0);
    room = (MOST * sizeof(struct seqtullo_deadline) + page - 1) / page * page;
    if (file < 0 || ftruncate(file, (off_t)room) != 0)
        exit(2);
    front = guarded(file, PROT_READ | PROT_WRITE);
    front_to_read = guarded(file, PROT_READ);
}

/* What the numbers of a run are chosen from: few ids, moments or nanoseconds, so that some are equal, or many. */
struct kind {
    uint32_t ids;
    unsigned moments;
    unsigned nanoseconds;
};

static uint32_t any_id(const struct kind *k)
{
    uint32_t id = (uint32_t)below(k->ids);
    return id % 2 == 1 ? UINT32_MAX - id / 2 : id / 2;
}

static int64_t any_moment(const struct kind *k)
{
    static const int64_t edges[] = {
        0, 1, -1, INT64_MAX, INT64_MAX - 1, INT64_MIN, INT64_MIN + 1, INT32_MAX, INT32_MIN, (int64_t)1 << 32, -((int64_t)1 << 32),
    };
    switch (k->moments) {
    case 0:
        return edges[below(sizeof edges / sizeof *edges)];
    case 1:
        return (int64_t)below(3) - 1;
    case 2:
        return 1710322200 + (int64_t)below(1000);
    default:
        return (int64_t)next() >> below(64);
    }
}

static uint32_t any_nanosecond(const struct kind *k)
{
    static const uint32_t edges[] = {0, 1, 999999999, 1000000000, INT32_MAX, (uint32_t)INT32_MAX + 1, UINT32_MAX};
    switch (k->nanoseconds) {
    case 0:
        return edges[below(sizeof edges / sizeof *edges)];
    case 1:
        return (uint32_t)below(2);
    case 2:
        return (uint32_t)below(1000000000);
    default:
        return (uint32_t)(next() >> 32);
    }
}

/* Any deadline; the bytes between its fields are any too. */
static struct seqtullo_deadline any_deadline(const struct kind *k)
{
    struct seqtullo_deadline d;
    memset(&d, (int)below(256), sizeof d);
    d.id = any_id(k);
    d.moment = any_moment(k);
    d.nanosecond = any_nanosecond(k);
    return d;
}

/* A board as the host keeps it, how many calls of ten are to join, and how many calls it still gets. */
static struct board {
    struct kind kind;
    struct seqtullo_deadline run[MOST];
    size_t places, count;
    unsigned joins;
    unsigned long left;
} board;

/* A board with any plug-ins, mostly with each id once, or an empty one that many calls fill and empty. */
static void begin(void)
{
    static const uint32_t few[] = {2, 3, 5, 9, 130, 200};
    struct board *b = &board;
    b->kind.ids = below(2) ? few[below(sizeof few / sizeof *few)] : UINT32_MAX;
    b->kind.moments = (unsigned)below(4);
    b->kind.nanoseconds = (unsigned)below(4);
    switch (below(8)) {
    case 0:
        b->places = SEQTULLO_MAX_PLACES + 1 + below(MOST - SEQTULLO_MAX_PLACES);
        break;
    case 1:
    case 2:
        b->places = SEQTULLO_MAX_PLACES;
        break;
    case 3:
        b->places = below(SEQTULLO_MAX_PLACES + 1);
        break;
    default:
        b->places = below(12);
    }
    for (size_t i = 0; i < b->places; i++)
        b->run[i] = any_deadline(&b->kind);
    b->joins = 9;
    b->count = 0;
    b->left = 1 + below(8 * b->places + 40);
    if (below(2)) {
        b->count = below(4) ? below(b->places + 1) : b->places;
        b->left = 1 + below(20);
        bool once = below(16) && b->kind.ids > b->count;
        for (size_t i = 0; once && i < b->count; i++)
            while (plain_place(b->run, i, b->run[i].id) < i)
                b->run[i].id = any_id(&b->kind);
    }
    /* A run of too many places gets few calls: all have one answer. */
    if (b->places > SEQTULLO_MAX_PLACES)
        b->left = 2;
}

struct call {
    int function;
    size_t count;
    /* Its id leaves. */
    struct seqtullo_deadline joining;
};

/* A full board is mostly left, an empty one joined; between them it fills up, empties or stays about as it is. */
static int any_function(void)
{
    struct board *b = &board;
    unsigned chance = (unsigned)below(12);
    if (b->count == 0)
        b->joins = below(4) ? 9 : 5;
    else if (b->count == b->places)
        b->joins = below(4) ? 1 : 5;
    else if (below(128) == 0)
        b->joins = 1 + (unsigned)below(9);
    return chance >= 10 ? NEXT : chance < b->joins ? JOIN : LEAVE;
}

/* Any id, one of the board, that of the first place after it, or one of the run: what joins is mostly new, and what leaves mostly on the board. */
static uint32_t id_for(int function)
{
    const struct board *b = &board;
    uint64_t chance = below(16);
    if (b->places == 0 || chance < (function == JOIN ? 13 : 2))
        return any_id(&b->kind);
    if (chance < 14 && b->count > 0)
        return b->run[below(b->count)].id;
    if (chance < 15 && b->count < b->places)
        return b->run[b->count].id;
    return b->run[below(b->places)].id;
}

/* Any call, sometimes with another count, or after another write to a place that belongs to nobody. */
static struct call any_call(void)
{
    static const size_t far[] = {SIZE_MAX, SIZE_MAX / 2, SIZE_MAX / 2 + 1, (size_t)1 << 32, ((size_t)1 << 32) + 1, 127, 128, 129};
    struct board *b = &board;
    struct call c = {any_function(), b->count, any_deadline(&b->kind)};
    if (b->count < b->places && below(8) == 0)
        b->run[b->count + below(b->places - b->count)] = any_deadline(&b->kind);
    c.joining.id = id_for(c.function);
    /* Few boards would fill up if most nanoseconds were refused. */
    if (below(8))
        c.joining.nanosecond %= 1000000000;
    if (below(32) == 0)
        c.count = below(4) ? below(b->places + 3) : far[below(sizeof far / sizeof *far)];
    return c;
}

static bool same(struct seqtullo_deadline a, struct seqtullo_deadline b)
{
    return a.id == b.id && a.moment == b.moment && a.nanosecond == b.nanosecond;
}

static unsigned long seen[FUNCTIONS][NUMBERS];

/* Makes a call on both sides and says what differs, or NULL. In a refusal the bytes between the fields have to stay too. */
static const char *differs(const struct call *c, int at_the_end)
{
    struct board *b = &board;
    static struct seqtullo_deadline before[MOST];
    size_t bytes = b->places * sizeof *before, at = at_the_end ? room - bytes : 0;
    struct seqtullo_deadline *lent = (struct seqtullo_deadline *)(front + at);
    const struct seqtullo_deadline *to_read = (const struct seqtullo_deadline *)(front_to_read + at);
    struct seqtullo_board_answer ours, wanted;
    if (b->places == 0 && at_the_end)
        lent = NULL, to_read = NULL;
    if (bytes > 0)
        memcpy(lent, b->run, bytes);
    memcpy(before, b->run, bytes);
    if (c->function == JOIN) {
        ours = seqtullo_board_join(lent, b->places, c->count, c->joining);
        wanted = plain_board_join(b->run, b->places, c->count, c->joining);
    } else if (c->function == LEAVE) {
        ours = seqtullo_board_leave(lent, b->places, c->count, c->joining.id);
        wanted = plain_board_leave(b->run, b->places, c->count, c->joining.id);
    } else {
        ours = seqtullo_board_next(to_read, b->places, c->count);
        wanted = plain_board_next(b->run, b->places, c->count);
    }
    seen[c->function][wanted.number]++;
    if (wanted.number == 0)
        b->count = wanted.count;
    if (ours.number != wanted.number)
        return "the number";
    if (ours.count != wanted.count)
        return "the count";
    if (!same(ours.next, wanted.next))
        return "the next to stop";
    for (size_t i = 0; i < b->places; i++)
        if (!same(lent[i], b->run[i]))
            return "a place of the run";
    if (bytes > 0 && (wanted.number != 0 || c->function == NEXT) && memcmp(lent, before, bytes) != 0)
        return "a byte of the run";
    return NULL;
}

static void show(unsigned long count)
{
    printf("number %10s %10s %10s\n", names[JOIN], names[LEAVE], names[NEXT]);
    for (int n = 0; n < NUMBERS; n++)
        if (seen[JOIN][n] || seen[LEAVE][n] || seen[NEXT][n])
            printf("%6d %10lu %10lu %10lu\n", n, seen[JOIN][n], seen[LEAVE][n], seen[NEXT][n]);
    printf("%lu calls, ", count);
}

int main(int argc, char **argv)
{
    unsigned long count = argc > 1 ? strtoul(argv[1], NULL, 10) : 5000000, differences = 0;
    state = (argc > 2 ? strtoull(argv[2], NULL, 10) : 1) * 0x9e3779b97f4a7c15u | 1;
    if (count == 0)
        return 2;
    make_room();
    for (unsigned long i = 0; i < count; i++) {
        if (board.left == 0)
            begin();
        board.left--;
        struct call c = any_call();
        size_t records = board.count;
        const char *what = differs(&c, (int)(i % 2));
        if (what && differences++ < SHOWN)
            printf("call %lu, %s with count %zu on a board of %zu in %zu places: %s differs\n", i, names[c.function], c.count, records,
                   board.places, what);
    }
    show(count);
    printf("%lu differences\n", differences);
    return differences > 0;
}
