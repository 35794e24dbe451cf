/* Calls the library through the header and looks at every field of every answer. */
#include "seqtullo.h"

#include <stdio.h>
#include <string.h>

static int wrong;

#define IS(got, wanted)                                                                          \
    do {                                                                                         \
        if ((long long)(got) != (long long)(wanted)) {                                           \
            printf("%s is %lld, not %lld\n", #got, (long long)(got), (long long)(wanted));       \
            wrong = 1;                                                                           \
        }                                                                                        \
    } while (0)

int main(void)
{
    struct seqtullo_answer a = seqtullo_new(2147485547u, 3, 14, 15, 9, 26, 535897932u, -34200);
    IS(a.number, 0);
    IS(a.place, 0);
    IS(a.record.year, 2147485547u);
    IS(a.record.month, 3);
    IS(a.record.day, 14);
    IS(a.record.hour, 15);
    IS(a.record.minute, 9);
    IS(a.record.second, 26);
    IS(a.record.nanosecond, 535897932u);
    IS(a.record.offset_seconds, -34200);

    uint8_t out[64];
    memset(out, 7, sizeof out);
    struct seqtullo_written w = seqtullo_write(a.record, out, sizeof out);
    IS(w.number, 0);
    IS(w.length, SEQTULLO_TEXT);
    IS(memcmp(out, "2147485547-03-14 15:09:26.535897932-09:30", SEQTULLO_TEXT), 0);
    IS(out[SEQTULLO_TEXT], 7);
    w = seqtullo_write(a.record, NULL, 0);
    IS(w.number, SEQTULLO_SHORT);
    IS(w.length, 0);

    struct seqtullo_answer base = seqtullo_new(2024, 3, 13, 9, 30, 0, 0, 0);
    struct seqtullo_answer b = seqtullo_read_text(out, SEQTULLO_TEXT, base.record);
    IS(b.number, 0);
    IS(memcmp(&b.record.year, &a.record.year, sizeof a.record.year), 0);
    IS(b.record.nanosecond, a.record.nanosecond);
    IS(b.record.offset_seconds, a.record.offset_seconds);
    b = seqtullo_read_text(NULL, 0, base.record);
    IS(b.number, 0);
    IS(b.record.hour, 9);
    IS(b.record.minute, 30);
    b = seqtullo_read_text((const uint8_t *)"10:00 \x80", 7, base.record);
    IS(b.number, SEQTULLO_FOREIGN);
    IS(b.place, 6);
    IS(b.record.year, 0);

    b = seqtullo_read_profile((const uint8_t *)"2020-W53-5", 10, base.record);
    IS(b.number, 0);
    IS(b.record.year, 2021);
    IS(b.record.month, 1);
    IS(b.record.day, 1);
    IS(b.record.hour, 0);
    b = seqtullo_read_profile((const uint8_t *)"2021-W53-5", 10, base.record);
    IS(b.number, SEQTULLO_WEEK);
    IS(b.place, 0);
    IS(b.record.year, 0);

    struct seqtullo_moment m = seqtullo_unix_seconds(base.record);
    IS(m.number, 0);
    IS(m.seconds, 1710322200);
    base.record.month = 13;
    m = seqtullo_unix_seconds(base.record);
    IS(m.number, SEQTULLO_MONTH);
    IS(m.seconds, 0);
    base.record.month = 3;

    struct seqtullo_number n = seqtullo_weekday(base.record);
    IS(n.number, 0);
    IS(n.value, 2);
    n = seqtullo_day_of_year(base.record);
    IS(n.value, 73);
    IS(seqtullo_days_in_month(2024, 2), 29);
    a = seqtullo_from_unix_seconds(-1, 0, 3600);
    IS(a.record.year, 1970);
    IS(a.record.hour, 0);
    IS(a.record.second, 59);
    IS(seqtullo_add_days(base.record, -13).record.month, 2);
    IS(seqtullo_add_hours(base.record, 15).record.day, 14);
    IS(seqtullo_add_minutes(base.record, -31).record.hour, 8);
    IS(seqtullo_add_seconds(base.record, 1, 1000000000u).record.second, 2);
    IS(seqtullo_add_years(base.record, -2025).number, SEQTULLO_UNDER);
    IS(seqtullo_add_months(base.record, -13).record.year, 2023);

    struct seqtullo_deadline run[SEQTULLO_MAX_PLACES + 1], soon = {3000000000u, -5000000000, 999999999}, late = {7, 5000000000, 0};
    struct seqtullo_board_answer c = seqtullo_board_next(NULL, 0, 0);
    IS(c.number, 0);
    IS(c.count, 0);
    IS(c.next.moment, 0);
    c = seqtullo_board_join(run, SEQTULLO_MAX_PLACES, 0, late);
    IS(c.number, 0);
    IS(c.count, 1);
    IS(c.next.id, 7);
    c = seqtullo_board_join(run, SEQTULLO_MAX_PLACES, 1, soon);
    IS(c.number, 0);
    IS(c.count, 2);
    IS(c.next.id, 3000000000u);
    IS(c.next.moment, -5000000000);
    IS(c.next.nanosecond, 999999999);
    IS(run[0].id, 7);
    IS(run[0].moment, 5000000000);
    IS(run[0].nanosecond, 0);
    IS(run[1].id, 3000000000u);
    IS(run[1].moment, -5000000000);
    IS(run[1].nanosecond, 999999999);
    c = seqtullo_board_next(run, 2, 2);
    IS(c.number, 0);
    IS(c.count, 2);
    IS(c.next.id, 3000000000u);
    IS(seqtullo_board_join(run, 2, 2, soon).number, SEQTULLO_PRESENT);
    IS(seqtullo_board_join(run, 1, 1, soon).number, SEQTULLO_FULL);
    IS(seqtullo_board_leave(run, 2, 1, soon.id).number, SEQTULLO_ABSENT);
    IS(seqtullo_board_next(run, SEQTULLO_MAX_PLACES + 1, 0).number, SEQTULLO_OVERSIZE);
    c = seqtullo_board_leave(run, 2, 2, 7);
    IS(c.number, 0);
    IS(c.count, 1);
    IS(c.next.moment, -5000000000);
    IS(run[0].id, 3000000000u);
    IS(run[0].nanosecond, 999999999);
    IS(run[1].id, 0);
    IS(run[1].moment, 0);
    IS(run[1].nanosecond, 0);
    run[1] = run[0];
    c = seqtullo_board_next(run, 2, 2);
    IS(c.number, SEQTULLO_PACKET);
    IS(c.count, 0);
    IS(c.next.id, 0);
    soon.nanosecond = 1000000000;
    IS(seqtullo_board_join(run, 2, 1, soon).number, SEQTULLO_NANOSECOND);
    return wrong;
}
