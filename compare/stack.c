/*
 * The most stack that each function for hosts uses: every call is made on a painted stack of its own, and the lowest byte that lost its
 * paint counts. The worst call of each function is made once more in a thread of 128 KiB. For x86-64.
 */
#define _GNU_SOURCE
#include "seqtullo.h"

#include <pthread.h>
#include <stdio.h>
#include <stdlib.h>
#include <string.h>
#include <sys/mman.h>

enum { MOST = 5000, ROOM = 512 * 1024, PAGE = 4096, PAINT = 0xa5, THREAD = 128 * 1024, RANDOM = 2000 };

struct arguments {
    uint8_t bytes[MOST];
    size_t length;
    struct seqtullo_record record;
    int64_t amount;
    uint32_t nanosecond;
    struct seqtullo_deadline run[SEQTULLO_MAX_PLACES], joining;
    size_t places, count;
};

/* What the next call is made with. */
static struct arguments now;
static volatile uint32_t number;

static void read_text(void) { number = seqtullo_read_text(now.bytes, now.length, now.record).number; }
static void read_profile(void) { number = seqtullo_read_profile(now.bytes, now.length, now.record).number; }
static void read_packet(void) { number = seqtullo_read_packet(now.bytes, now.length, now.record).number; }
static void write_text(void) { number = seqtullo_write(now.record, now.bytes, now.length).number; }
static void new(void)
{
    struct seqtullo_record r = now.record;
    number = seqtullo_new(r.year, r.month, r.day, r.hour, r.minute, r.second, r.nanosecond, r.offset_seconds).number;
}
static void from_unix_seconds(void) { number = seqtullo_from_unix_seconds(now.amount, now.nanosecond, now.record.offset_seconds).number; }
static void unix_seconds(void) { number = seqtullo_unix_seconds(now.record).number; }
static void add_days(void) { number = seqtullo_add_days(now.record, now.amount).number; }
static void add_hours(void) { number = seqtullo_add_hours(now.record, now.amount).number; }
static void add_minutes(void) { number = seqtullo_add_minutes(now.record, now.amount).number; }
static void add_seconds(void) { number = seqtullo_add_seconds(now.record, now.amount, now.nanosecond).number; }
static void add_years(void) { number = seqtullo_add_years(now.record, (int32_t)now.amount).number; }
static void add_months(void) { number = seqtullo_add_months(now.record, (int32_t)now.amount).number; }
static void weekday(void) { number = seqtullo_weekday(now.record).number; }
static void day_of_year(void) { number = seqtullo_day_of_year(now.record).number; }
static void days_in_month(void) { number = seqtullo_days_in_month(now.record.year, now.record.month); }
static void board_join(void) { number = seqtullo_board_join(now.run, now.places, now.count, now.joining).number; }
static void board_leave(void) { number = seqtullo_board_leave(now.run, now.places, now.count, now.joining.id).number; }
static void board_next(void) { number = seqtullo_board_next(now.run, now.places, now.count).number; }

static struct function {
    const char *name;
    void (*call)(void);
    unsigned long calls;
    size_t most;
    struct arguments worst;
} functions[] = {
    {.name = "read_text", .call = read_text},
    {.name = "read_profile", .call = read_profile},
    {.name = "read_packet", .call = read_packet},
    {.name = "write", .call = write_text},
    {.name = "new", .call = new},
    {.name = "from_unix_seconds", .call = from_unix_seconds},
    {.name = "unix_seconds", .call = unix_seconds},
    {.name = "add_days", .call = add_days},
    {.name = "add_hours", .call = add_hours},
    {.name = "add_minutes", .call = add_minutes},
    {.name = "add_seconds", .call = add_seconds},
    {.name = "add_years", .call = add_years},
    {.name = "add_months", .call = add_months},
    {.name = "weekday", .call = weekday},
    {.name = "day_of_year", .call = day_of_year},
    {.name = "days_in_month", .call = days_in_month},
    {.name = "board_join", .call = board_join},
    {.name = "board_leave", .call = board_leave},
    {.name = "board_next", .call = board_next},
};

enum { FUNCTIONS = sizeof functions / sizeof *functions, TEXTS = 2, BY_BYTES = 3 };

static uint8_t *stack;
static uint8_t painted[PAGE];

/* The bytes of stack from the call's return address down to the lowest that it wrote. */
static size_t used(void (*call)(void))
{
    static size_t dirty = ROOM;
    uint8_t *lowest = stack;
    memset(stack + ROOM - dirty, PAINT, dirty);
    __asm__ volatile("movq %%rsp, %%rbx\n\t"
                     "movq %0, %%rsp\n\t"
                     "call *%1\n\t"
                     "movq %%rbx, %%rsp"
                     :
                     : "r"(stack + ROOM), "r"(call)
                     : "rax", "rbx", "rcx", "rdx", "rsi", "rdi", "r8", "r9", "r10", "r11", "xmm0", "xmm1", "xmm2", "xmm3", "xmm4", "xmm5",
                       "xmm6", "xmm7", "xmm8", "xmm9", "xmm10", "xmm11", "xmm12", "xmm13", "xmm14", "xmm15", "memory", "cc");
    while (memcmp(lowest, painted, PAGE) == 0)
        lowest += PAGE;
    while (*lowest == PAINT)
        lowest++;
    dirty = (size_t)(stack + ROOM - lowest);
    return dirty;
}

static void measure(struct function *f)
{
    struct arguments before = now;
    size_t n = used(f->call);
    f->calls++;
    if (n > f->most) {
        f->most = n;
        f->worst = before;
    }
}

static uint64_t state = 0x9e3779b97f4a7c15u;

static uint64_t next(void)
{
    state ^= state << 13;
    state ^= state >> 7;
    state ^= state << 17;
    return state;
}

/* A board of any size, full or with a place left, now and then with an id twice, and a plug-in that joins or leaves it. */
static void choose_board(void)
{
    now.count = next() % (SEQTULLO_MAX_PLACES + 1);
    now.places = now.count + (now.count < SEQTULLO_MAX_PLACES ? next() % 2 : 0);
    for (size_t i = 0; i < SEQTULLO_MAX_PLACES; i++)
        now.run[i] = (struct seqtullo_deadline){(uint32_t)i, (int64_t)next() >> next() % 64, (uint32_t)(next() % 1000000000)};
    if (next() % 4 == 0)
        now.run[next() % SEQTULLO_MAX_PLACES].id = 0;
    now.joining = now.run[next() % SEQTULLO_MAX_PLACES];
}

/* An accepted record, or in one of four calls one with any numbers, a number of any size, and a board. */
static void choose(void)
{
    struct seqtullo_answer a = seqtullo_from_unix_seconds((int64_t)(next() % 40000000000000000u), (uint32_t)(next() % 1000000000), (int32_t)(next() % 2881) * 60 - 86400);
    now.record = a.record;
    if (next() % 4 == 0)
        for (uint8_t *p = (uint8_t *)&now.record; p < (uint8_t *)(&now.record + 1); p++)
            *p = (uint8_t)(next() >> 32);
    now.amount = (int64_t)next() >> next() % 64;
    now.nanosecond = (uint32_t)(next() >> 32 >> next() % 32);
    now.length = next() % 64;
    choose_board();
}

static void *thread(void *done)
{
    for (size_t i = 0; i < FUNCTIONS; i++) {
        now = functions[i].worst;
        functions[i].call();
    }
    *(int *)done = 1;
    return NULL;
}

int main(void)
{
    pthread_attr_t small;
    pthread_t t;
    int kind, low, high, done = 0;
    size_t most = 0;
    uint8_t *ground = mmap(NULL, ROOM + PAGE, PROT_READ | PROT_WRITE, MAP_PRIVATE | MAP_ANONYMOUS, -1, 0);

    if (ground == MAP_FAILED || mprotect(ground, PAGE, PROT_NONE) != 0)
        return 2;
    stack = ground + PAGE;
    memset(painted, PAINT, sizeof painted);

    /* Texts and packets: a letter, the length in two bytes, and the bytes. */
    while ((kind = getchar()) != EOF) {
        low = getchar(), high = getchar();
        now.length = (size_t)(low + 256 * high);
        if (low == EOF || high == EOF || now.length > MOST || fread(now.bytes, 1, now.length, stdin) != now.length)
            return 2;
        now.record = (struct seqtullo_record){2024, 3, 13, 9, 30, 0, 0, 0};
        for (size_t i = kind == 't' ? 0 : TEXTS; i < (kind == 't' ? TEXTS : BY_BYTES); i++)
            measure(&functions[i]);
    }
    for (size_t i = BY_BYTES; i < FUNCTIONS; i++)
        for (int j = 0; j < RANDOM; j++) {
            choose();
            measure(&functions[i]);
        }

    printf("%-18s %8s %14s   the worst\n", "function", "calls", "most bytes");
    for (size_t i = 0; i < FUNCTIONS; i++) {
        struct function *f = &functions[i];
        if (f->calls == 0)
            return 2;
        printf("%-18s %8lu %14zu   ", f->name, f->calls, f->most);
        if (i < BY_BYTES) {
            printf("%zu bytes:", f->worst.length);
            for (size_t k = 0; k < f->worst.length && k < 24; k++)
                printf(i < TEXTS ? "%c" : " %02x", f->worst.bytes[k]);
        }
        printf("\n");
        most = f->most > most ? f->most : most;
    }
    printf("the most: %zu bytes of %d\n", most, SEQTULLO_STACK);
    fflush(stdout);
    if (pthread_attr_init(&small) != 0 || pthread_attr_setstacksize(&small, THREAD) != 0 || pthread_create(&t, &small, thread, &done) != 0
        || pthread_join(t, NULL) != 0 || !done)
        return 2;
    printf("each worst call went through in a thread of %d bytes\n", THREAD);
    return most > SEQTULLO_STACK;
}
