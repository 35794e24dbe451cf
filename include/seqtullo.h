/*
 * Seqtullo: dates for hosts that start and stop other people's programs.
 *
 * Every function takes any arguments and answers by a number: 0, or one of the refusals below. A refusal carries the blank record
 * (eight zeros), the count 0 and a deadline of zeros, or 0 where a length, a moment or another number was wanted, and every byte that was
 * lent reads as before. A record or a base that is lent in is tested first, as seqtullo_new tests its numbers. Nothing is kept between
 * calls, nothing is allocated, and any thread may call with SEQTULLO_STACK bytes of stack left; a thread of 128 KiB starts with them
 * unless its thread-local variables take more than a few KiB.
 *
 * A pointer with length 0 may be null; nothing is read or written there.
 */
#ifndef SEQTULLO_H
#define SEQTULLO_H

#include <stddef.h>
#include <stdint.h>

#ifdef __cplusplus
extern "C" {
#endif

/* The release of this header and of the library beside it: CHANGELOG.md. */
#define SEQTULLO_VERSION "2.3.0"

/* The answers by number. */
enum {
    SEQTULLO_OVERSIZE = 1,    /* a text over 4096 bytes, a 65th item, a packet's item count above 64, a board with more than 128 places, or
                                 with fewer places than its count */
    SEQTULLO_FOREIGN = 2,     /* a byte of 128 or more; place: the index of the first */
    SEQTULLO_UNREAD = 3,      /* no reader matches; place: where the item before ended */
    SEQTULLO_STOPPED = 4,     /* a reader stops; place: where the item before ended */
    SEQTULLO_PACKET = 5,      /* a packet rule is broken; place: the item's index, the item count for digits left over, 0 in the header; of a
                                 board: two plug-ins have one id */
    SEQTULLO_TWICE = 6,       /* a second date, time, weekday or zone, or a zone after a time with an offset; place: the item's index */
    SEQTULLO_RIVAL = 7,       /* a time with an offset, after a zone (a zone after such a time is 6); place: the item's index */
    SEQTULLO_PURE = 8,        /* a pure number that is no hour and minute; place: the item's index */
    SEQTULLO_OVER = 9,        /* a year above 2147485547, or a pure year that no u32 can represent */
    SEQTULLO_UNDER = 10,      /* a year below 0, or a computed year that no u32 can represent */
    SEQTULLO_MONTH = 11,      /* outside 1 to 12 */
    SEQTULLO_DAY = 12,        /* outside 1 to the month's last */
    SEQTULLO_HOUR = 13,       /* above 23 */
    SEQTULLO_MINUTE = 14,     /* above 59 */
    SEQTULLO_SECOND = 15,     /* above 59 */
    SEQTULLO_NANOSECOND = 16, /* above 999999999, in a record or in a deadline that joins a board, or too many to add */
    SEQTULLO_OFFSET = 17,     /* more than 86400 seconds either way */
    SEQTULLO_SUM = 18,        /* a sum or product that leaves an i64, nanoseconds that leave a u32, or days to a weekday that leave an i32 */
    SEQTULLO_SHORT = 19,      /* the place to write to is shorter than the text */
    SEQTULLO_SEAM = 20,       /* the offset is not whole minutes, on writing */
    SEQTULLO_WEEK = 21,       /* a week that its year does not have, or a day of the week outside 1 to 7 */
    SEQTULLO_FRACTION = 22,   /* the fraction of a text's item has a digit other than 0 after the ninth; place: where the item before ended */
    SEQTULLO_PRESENT = 23,    /* the id that joins is on the board already */
    SEQTULLO_FULL = 24,       /* all places of the board are taken */
    SEQTULLO_ABSENT = 25      /* the id that leaves is not on the board */
};

/* A date and time at an offset, in seconds east of UTC. Compare two records field by field: there are bytes between the fields, and memcmp
   would read them. */
struct seqtullo_record {
    uint32_t year;
    uint8_t month;
    uint8_t day;
    uint8_t hour;
    uint8_t minute;
    uint8_t second;
    uint32_t nanosecond;
    int32_t offset_seconds;
};

/* A record under number 0, or a refusal, its place and the blank record. The place is 0 but for 2 to 8 and 22. */
struct seqtullo_answer {
    uint32_t number;
    uint32_t place;
    struct seqtullo_record record;
};

/* Seconds from 1970-01-01 00:00:00 at offset 0. */
struct seqtullo_moment {
    uint32_t number;
    int64_t seconds;
};

struct seqtullo_number {
    uint32_t number;
    uint32_t value;
};

struct seqtullo_written {
    uint32_t number;
    uint32_t length;
};

/* The id of a plug-in, and when it is to stop: seconds from 1970-01-01 00:00:00 at offset 0, and the nanosecond after them. Of a record these are
   seqtullo_unix_seconds(record).seconds and record.nanosecond. There are bytes between the fields here too. */
struct seqtullo_deadline {
    uint32_t id;
    int64_t moment;
    uint32_t nanosecond;
};

/* Under number 0: the count after the call, and the plug-in that stops next. With the count 0 `next` is zeros; test the count, since a plug-in
   may be zeros too. In a refusal the count and `next` are zeros. */
struct seqtullo_board_answer {
    uint32_t number;
    uint32_t count;
    struct seqtullo_deadline next;
};

/* The most bytes of a text, the most items of a text or a packet, the most places of a board, and the longest text of a record. */
#define SEQTULLO_MAX_TEXT 4096
#define SEQTULLO_MAX_ITEMS 64
#define SEQTULLO_MAX_PLACES 128
#define SEQTULLO_TEXT 41

/* An upper bound on the stack that a call uses, in bytes: measured by compare/stack, not proved. */
#define SEQTULLO_STACK 114688

/* Reads a text under a base: docs/TEXTS.md. A date alone is midnight of that day; a time alone is of the base's day, with second and
   nanosecond 0 where it gives none; a relative item alone moves the base and keeps its clock; a text without an item is the base. The offset is
   the base's where the text has none. After a time, a sign with a number is its offset: put a shift first (docs/TEXTS.md, 'To be careful with').
   A fraction of a second may have any number of digits, but those after the ninth must be 0. */
struct seqtullo_answer seqtullo_read_text(const uint8_t *text, size_t text_length, struct seqtullo_record base);

/* Reads a date as partner hosts exchange it (ISO 8601), and nothing else: `YYYY-MM-DD`, or `YYYY-Www-D` with the week and its day, 1 for Monday to 7
   (seqtullo_weekday's value plus 1). The year has four digits, as they stand: 0068 is year 68. The W is upper case. The length counts no line
   end and no terminating NUL. The record is midnight of that day at the base's offset. Week 1 is that of the year's first Thursday, so 2020-W53-5
   is 2021-01-01. 9999-W52-6 and 9999-W52-7 are the first two days of year 10000; 0000-01-01 and 0000-01-02 have no week date.
   The tests come in this order: the base; 1 for more than 4096 bytes; 2 at the first byte of 128 or more; 3 at place 0 if the text has neither
   form; 11 or 12 for a month or day that does not exist, or 21 for a week or its day. A refused base gives its own number, which may be 11 or 12.
   No function writes a week date. Up to year 9999 the first ten bytes that seqtullo_write writes are the plain date. */
struct seqtullo_answer seqtullo_read_profile(const uint8_t *text, size_t text_length, struct seqtullo_record base);

/* The bytes of a packet's header and of an item. */
#define SEQTULLO_PACKET_HEADER 8
#define SEQTULLO_PACKET_ITEM 28

/* A packet's item: its kind, the unit of a relative item, and the bits of its flags. */
#define SEQTULLO_KIND_DATE 1
#define SEQTULLO_KIND_TIME 2
#define SEQTULLO_KIND_DATE_TIME 3
#define SEQTULLO_KIND_WEEKDAY 4
#define SEQTULLO_KIND_OFFSET 5     /* a zone */
#define SEQTULLO_KIND_LOCAL_ZONE 6 /* a zone: the base's offset */
#define SEQTULLO_KIND_RELATIVE 7
#define SEQTULLO_KIND_PURE 8
#define SEQTULLO_UNIT_YEARS 1
#define SEQTULLO_UNIT_MONTHS 2
#define SEQTULLO_UNIT_DAYS 3
#define SEQTULLO_UNIT_HOURS 4
#define SEQTULLO_UNIT_MINUTES 5
#define SEQTULLO_UNIT_SECONDS 6
#define SEQTULLO_FLAG_YEAR 1   /* the date has a year */
#define SEQTULLO_FLAG_OFFSET 2 /* the time has an offset; not of a zone */
#define SEQTULLO_FLAG_WEST 4   /* the offset is west of UTC */

/* Reads a packet under a base: items that arrive already split, little-endian. docs/PACKET.md has each kind's fields and ranges. Header: item
   count, place of the items (8), digit count, place of the digits (8 + 28 * items), two bytes each. Item, 28 bytes: 0 kind, 1 weekday from
   Monday 0 or unit, 2 month, 3 day, 4-7 year, 8 hour, 9 minute, 10 second, 11 flags, 12-15 nanosecond, 16 offset hours, 17 offset minutes,
   18-19 digits of a pure number, 20-27 signed amount; what the kind does not use is 0. Then the digits of the pure numbers, in order, to the
   end. */
struct seqtullo_answer seqtullo_read_packet(const uint8_t *packet, size_t packet_length, struct seqtullo_record base);

/* Writes the record's text, as `2024-03-13 09:30:00.000000000+00:00`, to the front of `out`: 35 to 41 bytes; those after it stay. Read under
   any accepted base, the text gives the record again. With ` +N seconds` or ` -N seconds` after it, N at most 9223372036854775807, it gives
   the record N seconds later or earlier, and is refused exactly where there is none. An offset with odd seconds can't be written (20); under a
   base with such an offset, records that take it over have it too. */
struct seqtullo_written seqtullo_write(struct seqtullo_record record, uint8_t *out, size_t out_length);

/* The record of eight numbers, if each is in range. */
struct seqtullo_answer seqtullo_new(uint32_t year, uint8_t month, uint8_t day, uint8_t hour, uint8_t minute, uint8_t second,
                                    uint32_t nanosecond, int32_t offset_seconds);

/* The one record of a moment, a nanosecond and an offset, and back: the moment of a record. */
struct seqtullo_answer seqtullo_from_unix_seconds(int64_t unix_seconds, uint32_t nanosecond, int32_t offset_seconds);
struct seqtullo_moment seqtullo_unix_seconds(struct seqtullo_record record);

/* The record so many days, hours or minutes away, with the same nanosecond and offset: refused exactly where there is none. */
struct seqtullo_answer seqtullo_add_days(struct seqtullo_record record, int64_t days);
struct seqtullo_answer seqtullo_add_hours(struct seqtullo_record record, int64_t hours);
struct seqtullo_answer seqtullo_add_minutes(struct seqtullo_record record, int64_t minutes);

/* Seconds, and nanoseconds on top: at most 1999999999 less the record's own, since no more than one second is carried out of them; else 16, or
   18 where the sum of the nanoseconds leaves a u32. */
struct seqtullo_answer seqtullo_add_seconds(struct seqtullo_record record, int64_t seconds, uint32_t nanoseconds);

/* The same day of another year or month. Where that has no such day: its last day, and the days that were cut off are added. */
struct seqtullo_answer seqtullo_add_years(struct seqtullo_record record, int32_t years);
struct seqtullo_answer seqtullo_add_months(struct seqtullo_record record, int32_t months);

/* 0 for Monday to 6 for Sunday; 1 for the first of January. */
struct seqtullo_number seqtullo_weekday(struct seqtullo_record record);
struct seqtullo_number seqtullo_day_of_year(struct seqtullo_record record);

/* 0 for a month outside 1 to 12. */
uint8_t seqtullo_days_in_month(uint32_t year, uint8_t month);

/* The deadline board: which plug-in stops next.

   A board is a run of at most SEQTULLO_MAX_PLACES places that the host lends, and a count. The first `count` places are the plug-ins on the board;
   the other places belong to nobody and may contain anything. The host keeps both. An empty board has the count 0. After a call with number 0 the
   count is the one that was answered; a refusal changes nothing, so do not take its count, which is 0. A count that is too small forgets the
   later plug-ins. While one thread joins or leaves, no other may use the run. A run with places must not be null, and must have all of them.

   seqtullo_board_join puts a plug-in after the last one, at place `count`; no other place changes. Any moment may join, and any id that is
   not on the board.
   seqtullo_board_leave takes the plug-in with the id out. The later ones move up by one place, and the last of the `count` places becomes zeros: its
   id, moment and nanosecond. No place at or after the `count` that was passed changes. seqtullo_board_next changes nothing.

   The next to stop is the plug-in with the smallest moment, of these the one with the smallest nanosecond, and of these the one with the smallest
   id. Moments compare as signed numbers, ids as unsigned ones. No plug-in leaves by itself: its moment may be long past. To change a deadline,
   write its moment and nanosecond in its place, or let the plug-in leave and join again.

   The tests come in this order: 1 if the run has more than 128 places, or the count is above the number of places; 5 if two plug-ins on the
   board have one id; then, for a plug-in that joins, 16 if its nanosecond is above 999999999, 23 if its id is on the board already, and 24 if
   all places are taken; for one that leaves, 25 if its id is not on the board. If the board is full and has the id already, the answer is 23. A
   refusal leaves the whole run as it was. A board of at most 128 places that begins empty, and that accepted calls change, gets no
   1 and no 5.

   Of the plug-ins on the board only the ids are tested: a nanosecond above 999999999 there is compared and answered as it is. No call looks at
   the ids after the count. A run of 0 places may be null: with the count 0, join answers 24 (or 16), leave 25, and next number 0.

   A call takes time with the square of the count: some 2.5 microseconds for 127 plug-ins. */
struct seqtullo_board_answer seqtullo_board_join(struct seqtullo_deadline *run, size_t run_places, size_t count,
                                                 struct seqtullo_deadline joining);
struct seqtullo_board_answer seqtullo_board_leave(struct seqtullo_deadline *run, size_t run_places, size_t count, uint32_t id);
struct seqtullo_board_answer seqtullo_board_next(const struct seqtullo_deadline *run, size_t run_places, size_t count);

#ifdef __cplusplus
}
#endif

#endif
