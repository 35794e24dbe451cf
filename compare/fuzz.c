/*
 * A libFuzzer target over seqtullo_read_text, seqtullo_read_packet, seqtullo_write, seqtullo_read_profile and the deadline board: any bytes, and
 * an abort where an answer is not well formed. The first byte chooses: its two lowest bits the function, the next whether the base or record is
 * of eight numbers of the input; where the fourth bit is set, the function is one of the board's.
 */
#define _DEFAULT_SOURCE
#include "plain_board.h"
#include "seqtullo.h"
#include <stdio.h>
#include <stdlib.h>
#include <string.h>
#include <sys/mman.h>
#include <unistd.h>

enum { MOST_TEXT = 4096, MOST_ITEMS = 64, ITEM = 28, DATE = 10, KEPT = 256, LAST_YEAR = 2147485547, ROOM = 8192 };
enum { TEXT, PACKET, WRITE, PROFILE, BOARD, FUNCTIONS };
enum { OWN_RECORD = 4, RECORD = 17, A_BOARD = 8 };
enum { BOARD_HEADER = 20, DEADLINE = 16 };

#define WANT(condition) ((condition) ? (void)0 : fail(#condition, __LINE__))

/* ROOM bytes between two pages that can't be touched. */
static uint8_t *front;
static unsigned long seen[FUNCTIONS][32];

/* First items of packets that were read, to be put into others. */
static uint8_t kept[KEPT][ITEM];
static size_t kept_next;

/* The library is not instrumented. libFuzzer keeps an input that sets a counter here which no input before it set. */
__attribute__((used, section("__libfuzzer_extra_counters"))) static volatile uint8_t counters[1 << 12];

static void fail(const char *condition, int line)
{
    fprintf(stderr, "fuzz.c:%d: not so: %s\n", line, condition);
    abort();
}

static void show(void)
{
    fprintf(stderr, "number      texts    packets     writes   profiles     boards\n");
    for (int n = 0; n < 32; n++)
        if (seen[TEXT][n] || seen[PACKET][n] || seen[WRITE][n] || seen[PROFILE][n] || seen[BOARD][n])
            fprintf(stderr, "%6d %10lu %10lu %10lu %10lu %10lu\n", n, seen[TEXT][n], seen[PACKET][n], seen[WRITE][n], seen[PROFILE][n],
                    seen[BOARD][n]);
}

int LLVMFuzzerInitialize(int *argc, char ***argv)
{
    size_t page = (size_t)sysconf(_SC_PAGESIZE);
    uint8_t *ground = mmap(NULL, ROOM + 2 * page, PROT_NONE, MAP_PRIVATE | MAP_ANONYMOUS, -1, 0);
    (void)argc, (void)argv;
    if (ground == MAP_FAILED || ROOM % page != 0 || mprotect(ground + page, ROOM, PROT_READ | PROT_WRITE) != 0)
        abort();
    front = ground + page;
    atexit(show);
    return 0;
}

/* An answer of a new kind is worth keeping; there are some thousand kinds. */
static void note(int function, uint32_t number, uint32_t place, uint32_t more)
{
    uint32_t h = ((uint32_t)function * 32 + number) * 0x9e3779b1u ^ (place < 16 ? place : 16) * 0x85ebca77u ^ more * 0xc2b2ae3du;
    seen[function][number]++;
    counters[(h ^ h >> 15) % sizeof counters] = 1;
}

/* The function that the first byte of an input chooses. */
static int function_of(unsigned choice)
{
    return choice & A_BOARD ? BOARD : (int)(choice & 3);
}

static uint32_t of_record(struct seqtullo_record r)
{
    return r.month + 16u * (r.hour / 4u) + 128u * (r.offset_seconds != 0);
}

struct input {
    const uint8_t *bytes;
    size_t length;
};

/* The next number, little-endian; 0 where the input has ended. */
static uint64_t take(struct input *in, size_t width)
{
    uint64_t n = 0;
    for (size_t i = 0; i < width && in->length; i++, in->length--)
        n |= (uint64_t)*in->bytes++ << 8 * i;
    return n;
}

static struct seqtullo_record take_record(struct input *in)
{
    struct seqtullo_record r;
    r.year = (uint32_t)take(in, 4);
    r.month = (uint8_t)take(in, 1);
    r.day = (uint8_t)take(in, 1);
    r.hour = (uint8_t)take(in, 1);
    r.minute = (uint8_t)take(in, 1);
    r.second = (uint8_t)take(in, 1);
    r.nanosecond = (uint32_t)take(in, 4);
    r.offset_seconds = (int32_t)take(in, 4);
    return r;
}

/* What seqtullo_new answers to the numbers of a record. */
static uint32_t test(struct seqtullo_record r)
{
    static const uint8_t days[] = {31, 28, 31, 30, 31, 30, 31, 31, 30, 31, 30, 31};
    if (r.year > LAST_YEAR)
        return SEQTULLO_OVER;
    if (r.month < 1 || r.month > 12)
        return SEQTULLO_MONTH;
    int leap = r.month == 2 && (r.year % 400 == 0 || (r.year % 4 == 0 && r.year % 100 != 0));
    if (r.day < 1 || r.day > days[r.month - 1] + leap)
        return SEQTULLO_DAY;
    if (r.hour > 23)
        return SEQTULLO_HOUR;
    if (r.minute > 59)
        return SEQTULLO_MINUTE;
    if (r.second > 59)
        return SEQTULLO_SECOND;
    if (r.nanosecond > 999999999)
        return SEQTULLO_NANOSECOND;
    return r.offset_seconds < -86400 || r.offset_seconds > 86400 ? SEQTULLO_OFFSET : 0;
}

static int same(struct seqtullo_record a, struct seqtullo_record b)
{
    return a.year == b.year && a.month == b.month && a.day == b.day && a.hour == b.hour && a.minute == b.minute && a.second == b.second
        && a.nanosecond == b.nanosecond && a.offset_seconds == b.offset_seconds;
}

/* An accepted record has a moment, and what is written of it is read back under another base. */
static void accepted(struct seqtullo_record r)
{
    static const struct seqtullo_record base = {1999, 12, 31, 23, 59, 59, 999999999, -86399};
    WANT(test(r) == 0);
    WANT(seqtullo_unix_seconds(r).number == 0);
    if (r.offset_seconds % 60 != 0)
        return;
    uint8_t *out = front + ROOM - SEQTULLO_TEXT;
    struct seqtullo_written w = seqtullo_write(r, out, SEQTULLO_TEXT);
    WANT(w.number == 0 && w.length >= 35 && w.length <= SEQTULLO_TEXT);
    uint8_t *text = front + ROOM - w.length;
    memmove(text, out, w.length);
    struct seqtullo_answer a = seqtullo_read_text(text, w.length, base);
    WANT(a.number == 0 && a.place == 0 && same(a.record, r));
}

static struct seqtullo_answer read_by(int function, const uint8_t *lent, size_t length, struct seqtullo_record base)
{
    if (function == TEXT)
        return seqtullo_read_text(lent, length, base);
    if (function == PROFILE)
        return seqtullo_read_profile(lent, length, base);
    return seqtullo_read_packet(lent, length, base);
}

/* Reads the bytes at the end of the room and at its front: one answer, and the bytes as before. */
static struct seqtullo_answer read_twice(int function, struct input in, struct seqtullo_record base)
{
    struct seqtullo_answer a[2];
    for (int i = 0; i < 2; i++) {
        uint8_t *lent = i == 0 ? front + ROOM - in.length : front;
        memcpy(lent, in.bytes, in.length);
        a[i] = read_by(function, lent, in.length, base);
        WANT(memcmp(lent, in.bytes, in.length) == 0);
    }
    WANT(a[0].number == a[1].number && a[0].place == a[1].place && same(a[0].record, a[1].record));
    return a[0];
}

/* What every answer of the readers keeps to. */
static void well_formed(struct seqtullo_answer a, struct seqtullo_record base)
{
    static const struct seqtullo_record blank;
    WANT(a.number <= SEQTULLO_SUM || a.number == SEQTULLO_WEEK || a.number == SEQTULLO_FRACTION);
    WANT(a.number == 0 || same(a.record, blank));
    WANT((a.number >= 2 && a.number <= 8) || a.number == SEQTULLO_FRACTION || a.place == 0);
    if (test(base) != 0)
        WANT(a.number == test(base));
    if (a.number == 0)
        accepted(a.record);
}

/* Makes 0 of every digit that stands after nine others after a point or comma, and says whether one was not 0. */
static int clear(uint8_t *text, size_t length)
{
    int found = 0;
    for (size_t i = 0; i < length; i++) {
        if (text[i] != '.' && text[i] != ',')
            continue;
        for (size_t j = i + 1; j < length && text[j] >= '0' && text[j] <= '9'; j++)
            if (j > i + 9 && text[j] != '0') {
                text[j] = '0';
                found = 1;
            }
    }
    return found;
}

/* The index of the first byte of 128 or more, or the length. */
static size_t first_foreign(struct input in)
{
    size_t at = 0;
    while (at < in.length && in.bytes[at] < 128)
        at++;
    return at;
}

/* A text is refused for its fraction only if there is one that loses a digit, and never once it loses none. */
static void one_fraction(struct input in, struct seqtullo_record base, struct seqtullo_answer a)
{
    memcpy(front, in.bytes, in.length);
    if (a.number == SEQTULLO_FRACTION)
        WANT(clear(front + a.place, in.length - a.place));
    clear(front, in.length);
    WANT(seqtullo_read_text(front, in.length, base).number != SEQTULLO_FRACTION);
}

static void one_text(struct input in, struct seqtullo_record base)
{
    struct seqtullo_answer a = read_twice(TEXT, in, base);
    size_t foreign = first_foreign(in);
    well_formed(a, base);
    WANT(a.number != 5 && a.number != SEQTULLO_WEEK);
    if (test(base) == 0 && in.length > MOST_TEXT)
        WANT(a.number == SEQTULLO_OVERSIZE);
    else if (test(base) == 0 && foreign < in.length)
        WANT(a.number == SEQTULLO_FOREIGN && a.place == foreign);
    else
        WANT(a.number != SEQTULLO_FOREIGN);
    /* Reading ended before the end of the text. */
    int halted = a.number == SEQTULLO_UNREAD || a.number == SEQTULLO_STOPPED || a.number == SEQTULLO_FRACTION;
    WANT(!halted || a.place < in.length);
    if (a.number >= 5 && a.number <= 8)
        WANT(a.place < MOST_ITEMS);
    one_fraction(in, base, a);
    /* How far the reader came and before which byte, or what it read. */
    note(TEXT, a.number, a.place, halted ? in.bytes[a.place] % 32 : of_record(a.record));
}

static void one_packet(struct input in, struct seqtullo_record base)
{
    struct seqtullo_answer a = read_twice(PACKET, in, base);
    well_formed(a, base);
    WANT((a.number < 2 || a.number > 4) && a.number < SEQTULLO_WEEK);
    WANT(a.place <= MOST_ITEMS);
    if (test(base) == 0 && in.length < 8)
        WANT(a.number == 5 && a.place == 0);
    /* The kind and the unit of the item refused, or else of the first, and what was read. */
    const uint8_t *item = 8 + ITEM * ((size_t)a.place + 1) <= in.length ? in.bytes + 8 + ITEM * a.place : NULL;
    note(PACKET, a.number, a.place, item ? item[0] % 16 + 16u * (item[1] % 8) + 128u * of_record(a.record) : 0);
    if (a.number == 0 && in.length >= 8 + ITEM)
        memcpy(kept[kept_next++ % KEPT], in.bytes + 8, ITEM);
}

/* Whether a text has a digit where the form has one, else the form's byte, and no more bytes. */
static int has_form(struct input in, const char *form)
{
    if (in.length != DATE)
        return 0;
    for (size_t i = 0; i < DATE; i++)
        if (form[i] == '9' ? in.bytes[i] < '0' || in.bytes[i] > '9' : in.bytes[i] != (uint8_t)form[i])
            return 0;
    return 1;
}

/* The number of so many digits of a text. */
static uint32_t number_at(struct input in, size_t at, size_t digits)
{
    uint32_t n = 0;
    for (size_t i = at; i < at + digits; i++)
        n = n * 10 + (in.bytes[i] - '0');
    return n;
}

/* A year has 53 weeks if it begins on a Thursday, or on a Wednesday and is a leap year. */
static uint32_t weeks_in(uint32_t year)
{
    struct seqtullo_record first = {year, 1, 1, 0, 0, 0, 0, 0};
    uint32_t weekday = seqtullo_weekday(first).value;
    return weekday == 3 || (weekday == 2 && seqtullo_days_in_month(year, 2) == 29) ? 53 : 52;
}

/* A plain date is refused as seqtullo_new would refuse it; accepted, it is the text's date, and what seqtullo_read_text reads. */
static void one_plain_date(struct input in, struct seqtullo_record base, struct seqtullo_answer a)
{
    struct seqtullo_record wanted = {number_at(in, 0, 4), (uint8_t)number_at(in, 5, 2), (uint8_t)number_at(in, 8, 2), 0, 0, 0, 0, base.offset_seconds};
    WANT(a.number == test(wanted));
    WANT(a.number != 0 || same(a.record, wanted));
    memcpy(front, in.bytes, in.length);
    struct seqtullo_answer b = seqtullo_read_text(front, in.length, base);
    WANT((a.number == 0) == (b.number == 0) && (b.number != 0 || same(a.record, b.record)));
}

/* A week date is refused unless there is one; accepted, its Thursday is in the text's year, and so many Thursdays of it are not after that. */
static void one_week_date(struct input in, struct seqtullo_answer a)
{
    uint32_t year = number_at(in, 0, 4), week = number_at(in, 6, 2), day = number_at(in, 9, 1);
    WANT(a.number == (week < 1 || week > weeks_in(year) || day < 1 || day > 7 ? SEQTULLO_WEEK : 0));
    if (a.number != 0)
        return;
    struct seqtullo_answer thursday = seqtullo_add_days(a.record, 4 - (int64_t)day);
    WANT(seqtullo_weekday(a.record).value + 1 == day);
    WANT(thursday.number == 0 && thursday.record.year == year);
    WANT((seqtullo_day_of_year(thursday.record).value + 6) / 7 == week);
}

/* The tests in their order; then the record of a date is midnight at the base's offset. */
static void one_profile(struct input in, struct seqtullo_record base)
{
    struct seqtullo_answer a = read_twice(PROFILE, in, base);
    size_t foreign = first_foreign(in);
    well_formed(a, base);
    WANT(a.number == SEQTULLO_FOREIGN ? a.place == foreign : a.place == 0);
    if (a.number == 0)
        WANT(a.record.hour == 0 && a.record.minute == 0 && a.record.second == 0 && a.record.nanosecond == 0
             && a.record.offset_seconds == base.offset_seconds);
    if (test(base) != 0)
        WANT(a.number == test(base));
    else if (in.length > MOST_TEXT)
        WANT(a.number == SEQTULLO_OVERSIZE);
    else if (foreign < in.length)
        WANT(a.number == SEQTULLO_FOREIGN);
    else if (has_form(in, "9999-99-99"))
        one_plain_date(in, base, a);
    else if (has_form(in, "9999-W99-9"))
        one_week_date(in, a);
    else
        WANT(a.number == SEQTULLO_UNREAD);
    note(PROFILE, a.number, a.place, a.number == 0 ? of_record(a.record) : (uint32_t)(in.length < 16 ? in.length : 16));
}

static void one_record(struct input in, struct seqtullo_record r)
{
    char text[64];
    uint8_t before[128];
    size_t room = take(&in, 1) % sizeof before;
    uint8_t *out = front + ROOM - room;
    for (size_t i = 0; i < room; i++)
        out[i] = before[i] = (uint8_t)(take(&in, 1) + i);
    struct seqtullo_written w = seqtullo_write(r, out, room);
    int minutes = abs(r.offset_seconds % 86401) / 60;
    int length = snprintf(text, sizeof text, "%04u-%02u-%02u %02u:%02u:%02u.%09u%c%02d:%02d", (unsigned)r.year, r.month, r.day, r.hour,
                          r.minute, r.second, (unsigned)r.nanosecond, r.offset_seconds < 0 ? '-' : '+', minutes / 60, minutes % 60);
    uint32_t wanted = test(r) != 0 ? test(r) : r.offset_seconds % 60 != 0 ? SEQTULLO_SEAM : room < (size_t)length ? SEQTULLO_SHORT : 0;
    WANT(w.number == wanted);
    WANT(w.number == 0 ? w.length == (uint32_t)length && w.length >= 35 && w.length <= SEQTULLO_TEXT : w.length == 0);
    WANT(memcmp(out, text, w.length) == 0);
    WANT(memcmp(out + w.length, before + w.length, room - w.length) == 0);
    if (w.number == 0)
        accepted(r);
    note(WRITE, w.number, 0, w.length);
}

/* A call of the board: the input's first bytes, then its deadlines. */
struct board_call {
    unsigned function;
    size_t places, count;
    struct seqtullo_deadline joining;
};

static struct seqtullo_deadline take_deadline(struct input *in)
{
    struct seqtullo_deadline d;
    memset(&d, 0, sizeof d);
    d.id = (uint32_t)take(in, 4);
    d.moment = (int64_t)take(in, 8);
    d.nanosecond = (uint32_t)take(in, 4);
    return d;
}

static struct board_call take_board_call(struct input *in)
{
    struct board_call c;
    c.function = (unsigned)take(in, 1) % 3;
    c.places = (size_t)take(in, 1);
    c.count = (size_t)take(in, 2);
    c.joining = take_deadline(in);
    /* A count that is too large by any number. */
    if (c.count == 0xffff)
        c.count = SIZE_MAX;
    return c;
}

static int same_deadline(struct seqtullo_deadline a, struct seqtullo_deadline b)
{
    return a.id == b.id && a.moment == b.moment && a.nanosecond == b.nanosecond;
}

static struct seqtullo_board_answer call_board(const struct board_call *c, struct seqtullo_deadline *run)
{
    if (c->function == 0)
        return seqtullo_board_join(run, c->places, c->count, c->joining);
    if (c->function == 1)
        return seqtullo_board_leave(run, c->places, c->count, c->joining.id);
    return seqtullo_board_next(run, c->places, c->count);
}

static struct seqtullo_board_answer call_plain_board(const struct board_call *c, struct seqtullo_deadline *run)
{
    if (c->function == 0)
        return plain_board_join(run, c->places, c->count, c->joining);
    if (c->function == 1)
        return plain_board_leave(run, c->places, c->count, c->joining.id);
    return plain_board_next(run, c->places, c->count);
}

/* A plug-in that has joined leaves again, and the board is as before but for the place that it had. */
static void leaves_again(const struct board_call *c, struct seqtullo_deadline *run, const struct seqtullo_deadline *before)
{
    static const struct seqtullo_deadline zeros;
    struct seqtullo_board_answer a = seqtullo_board_leave(run, c->places, c->count + 1, c->joining.id);
    WANT(a.number == 0 && a.count == c->count);
    for (size_t i = 0; i < c->places; i++)
        WANT(same_deadline(run[i], i == c->count ? zeros : before[i]));
}

/* No plug-in of the board stops before the next one, which is one of them. */
static void is_next(const struct seqtullo_deadline *run, struct seqtullo_board_answer a)
{
    WANT(a.count == 0 || same_deadline(run[plain_place(run, a.count, a.next.id)], a.next));
    for (size_t i = 0; i < a.count; i++)
        WANT(!plain_before(&run[i], &a.next));
}

/* A call on a run at the end of the room and at its front. The answer and every place are those of plain C; in a refusal no byte changes. */
static void one_board(struct input in)
{
    static const struct seqtullo_deadline zeros;
    static struct seqtullo_deadline before[256], wanted[256];
    struct board_call c = take_board_call(&in);
    size_t bytes = c.places * sizeof *before;
    for (size_t i = 0; i < c.places; i++) {
        before[i] = take_deadline(&in);
        /* Ids differ where the input has ended. */
        before[i].id += (uint32_t)i;
    }
    memcpy(wanted, before, bytes);
    struct seqtullo_board_answer w = call_plain_board(&c, wanted);
    for (int i = 0; i < 2; i++) {
        struct seqtullo_deadline *run = (struct seqtullo_deadline *)(i == 0 ? front + ROOM - bytes : front);
        memcpy(run, before, bytes);
        struct seqtullo_board_answer a = call_board(&c, run);
        WANT(a.number == w.number && a.count == w.count && same_deadline(a.next, w.next));
        for (size_t k = 0; k < c.places; k++)
            WANT(same_deadline(run[k], wanted[k]));
        if (a.number != 0)
            WANT(a.count == 0 && same_deadline(a.next, zeros) && memcmp(run, before, bytes) == 0);
        else
            is_next(run, a);
        if (a.number == 0 && c.function == 0)
            leaves_again(&c, run, before);
    }
    note(BOARD, w.number, (uint32_t)c.places, c.function + 4u * (w.count < 8 ? w.count : 8) + 64u * (w.count < c.places));
}

/* Numbers in range, but for the day of some months. */
static void mend_record(uint8_t *r)
{
    r[3] %= 128;
    r[4] = (uint8_t)((r[4] + 11) % 12 + 1);
    r[5] = (uint8_t)((r[5] + 30) % 31 + 1);
    r[6] %= 24;
    r[7] %= 60;
    r[8] %= 60;
    r[12] %= 59;
    r[15] = r[14] & 128 ? 255 : 0;
    r[16] = r[15];
}

/* A header that fits the length and digits behind the items, with another item in front now and then. */
static size_t mend_packet(uint8_t *packet, size_t length, size_t most, unsigned seed)
{
    if (length < 8)
        return length;
    size_t items = packet[0] % (MOST_ITEMS + 2u);
    if (items > (length - 8) / ITEM)
        items = (length - 8) / ITEM;
    if (seed % 4 == 0 && kept_next > 0 && length + ITEM <= most) {
        memmove(packet + 8 + ITEM, packet + 8, length - 8);
        memcpy(packet + 8, kept[seed / 4 % (kept_next < KEPT ? kept_next : KEPT)], ITEM);
        items++;
        length += ITEM;
    }
    size_t place = 8 + ITEM * items;
    for (size_t i = place; i < length; i++)
        packet[i] = (uint8_t)('0' + packet[i] % 16 % 10);
    size_t digits = length - place;
    uint8_t header[] = {(uint8_t)items, 0, 8, 0, (uint8_t)digits, (uint8_t)(digits >> 8), (uint8_t)place, (uint8_t)(place >> 8)};
    memcpy(packet, header, sizeof header);
    return length;
}

/* One of the two forms in most texts; each digit is at most that of the form. */
static size_t mend_profile(uint8_t *text, size_t length, size_t most, unsigned seed)
{
    const char *form = seed % 2 ? "9999-19-39" : "9999-W59-9";
    if (most < DATE || seed % 8 < 2)
        return length;
    for (size_t i = 0; i < DATE; i++) {
        uint8_t byte = i < length ? text[i] : (uint8_t)(seed >> i);
        text[i] = (uint8_t)(form[i] > '0' && form[i] <= '9' ? '0' + (uint8_t)(byte - '0') % (form[i] - '0' + 1) : form[i]);
    }
    return DATE;
}

/* A count that is at most the places, mostly few places, and a nanosecond in range, both at their bounds now and then. An id of the board in most
   calls that are to leave it. */
static size_t mend_board(uint8_t *board, size_t length, unsigned seed)
{
    static const uint8_t most_nanoseconds[] = {0xff, 0xc9, 0x9a, 0x3b}, too_many[] = {0, 0xca, 0x9a, 0x3b};
    if (length < BOARD_HEADER)
        return length;
    uint8_t places = (uint8_t)(board[1] % (seed % 4 == 0 ? SEQTULLO_MAX_PLACES + 1 : 12));
    if (seed % 64 == 1)
        places = (uint8_t)(SEQTULLO_MAX_PLACES + seed / 64 % 2);
    uint8_t count = (uint8_t)(board[2] % (places + 1));
    uint8_t header[] = {board[0], places, count, 0};
    memcpy(board, header, sizeof header);
    board[BOARD_HEADER - 1] %= 59;
    if (seed % 64 == 2)
        memcpy(board + BOARD_HEADER - 4, seed / 64 % 2 ? most_nanoseconds : too_many, 4);
    size_t at = count ? seed / 4 % count : 0, id = BOARD_HEADER + DEADLINE * at;
    if (board[0] % 3 == 1 && count && seed % 16 < 12 && id + 4 <= length) {
        uint32_t n = (uint32_t)at;
        for (size_t i = 0; i < 4; i++)
            n += (uint32_t)board[id + i] << 8 * i;
        for (size_t i = 0; i < 4; i++)
            board[4 + i] = (uint8_t)(n >> 8 * i);
    }
    return length;
}

/* libFuzzer's change, or for some packets just an item more; then in three of four inputs what would be refused at the door is mended. */
size_t LLVMFuzzerMutate(uint8_t *bytes, size_t length, size_t most);
size_t LLVMFuzzerCustomMutator(uint8_t *bytes, size_t length, size_t most, unsigned seed)
{
    if (length == 0 || function_of(bytes[0]) != PACKET || seed % 16 != 1)
        length = LLVMFuzzerMutate(bytes, length, most);
    if (length == 0 || seed % 4 == 0)
        return length;
    if (function_of(bytes[0]) == BOARD)
        return 1 + mend_board(bytes + 1, length - 1, seed / 4);
    size_t at = bytes[0] & OWN_RECORD ? 1 + RECORD : 1;
    if (length < at)
        return length;
    if (at > 1)
        mend_record(bytes + 1);
    if (function_of(bytes[0]) == PACKET)
        return at + mend_packet(bytes + at, length - at, most - at, seed / 4);
    if (function_of(bytes[0]) != WRITE)
        for (size_t i = at; i < length; i++)
            bytes[i] &= 127;
    if (function_of(bytes[0]) == PROFILE)
        return at + mend_profile(bytes + at, length - at, most - at, seed / 4);
    return length;
}

int LLVMFuzzerTestOneInput(const uint8_t *bytes, size_t length)
{
    struct input in = {bytes, length};
    struct seqtullo_record r = {2024, 3, 13, 9, 30, 0, 0, 0};
    unsigned choice = (unsigned)take(&in, 1);
    int function = function_of(choice);
    if (function == BOARD) {
        one_board(in);
        return 0;
    }
    if (choice & OWN_RECORD) {
        r = take_record(&in);
    } else if (function == WRITE) {
        int64_t seconds = (int64_t)take(&in, 8) % 67768036191676800;
        uint32_t nanosecond = (uint32_t)(take(&in, 4) % 1000000000);
        int32_t offset = (int32_t)(take(&in, 2) % 2881) * 60 - 86400;
        struct seqtullo_answer a = seqtullo_from_unix_seconds(seconds, nanosecond, offset);
        if (a.number == 0)
            r = a.record;
    }
    if (in.length > ROOM)
        return 0;
    if (function == PACKET)
        one_packet(in, r);
    else if (function == WRITE)
        one_record(in, r);
    else if (function == PROFILE)
        one_profile(in, r);
    else
        one_text(in, r);
    return 0;
}
