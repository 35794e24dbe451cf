/*
 * Reads every plain date and every week date of the years 1 to 9999, in and about their bounds, and writes the answers as 32-bit numbers: the
 * date as YYYYMMDD, or the refusal's number. For each year come weeks 0 to 54 with days 0 to 9, then months 0 to 13 with days 0 to 32. The
 * base changes with the year, and is looked for in each answer.
 */
#include "seqtullo.h"

#include <stdio.h>
#include <string.h>

enum { ILL_FORMED = 99 };

/* A record is midnight at the base's offset, and a refusal is at place 0 with the blank record; what is not is ILL_FORMED. */
static uint32_t answer(const char *text, struct seqtullo_record base)
{
    struct seqtullo_answer a = seqtullo_read_profile((const uint8_t *)text, strlen(text), base);
    struct seqtullo_record r = a.record;
    int midnight = r.hour == 0 && r.minute == 0 && r.second == 0 && r.nanosecond == 0;
    if (a.place != 0 || !midnight || r.offset_seconds != (a.number == 0 ? base.offset_seconds : 0))
        return ILL_FORMED;
    if (a.number != 0)
        return r.year == 0 && r.month == 0 && r.day == 0 ? a.number : ILL_FORMED;
    return r.year * 10000 + r.month * 100u + r.day;
}

int main(void)
{
    char text[64];
    for (unsigned year = 1; year <= 9999; year++) {
        struct seqtullo_record base = {2024, 3, 13, 9, 30, 45, 7, (int32_t)(year * 17 % 172801) - 86400};
        uint32_t answers[55 * 10 + 14 * 33];
        size_t n = 0;
        for (unsigned week = 0; week < 55; week++)
            for (unsigned day = 0; day < 10; day++) {
                snprintf(text, sizeof text, "%04u-W%02u-%u", year, week, day);
                answers[n++] = answer(text, base);
            }
        for (unsigned month = 0; month < 14; month++)
            for (unsigned day = 0; day < 33; day++) {
                snprintf(text, sizeof text, "%04u-%02u-%02u", year, month, day);
                answers[n++] = answer(text, base);
            }
        if (fwrite(answers, sizeof *answers, n, stdout) != n)
            return 2;
    }
    return fflush(stdout) == 0 ? 0 : 2;
}
