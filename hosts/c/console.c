/*
 * A console for the end of a plug-in's run: reads a date as it was typed, under the clock's time at offset 0 as the base, and shows the
 * record and how long the run may go on, or the refusal with a caret under its place. The plug-in of a line whose date is still to come joins
 * a board, with the line's number as its id, and the console shows which plug-in stops next. The console's clock has whole seconds, so a
 * plug-in stops up to a second early. A line has at most 4998 bytes.
 */
#include "seqtullo.h"

#include <inttypes.h>
#include <stdio.h>
#include <string.h>
#include <time.h>

static const char *word(uint32_t number)
{
    static const char *const words[] = {
        "accepted", "oversize", "foreign", "unread", "stopped", "packet", "twice", "rival", "pure", "over", "under",
        "month", "day", "hour", "minute", "second", "nanosecond", "offset", "sum", "short", "seam", "week", "fraction",
        "present", "full", "absent",
    };
    return number < sizeof words / sizeof *words ? words[number] : "?";
}

static void show_refusal(const char *text, struct seqtullo_answer a)
{
    printf("refused: %" PRIu32 " (%s)\n", a.number, word(a.number));
    if ((a.number < SEQTULLO_FOREIGN || a.number > SEQTULLO_STOPPED) && a.number != SEQTULLO_FRACTION)
        return;
    printf("  %s\n  %*s^\n", text, (int)a.place, "");
}

static void show_left(const char *what, int64_t end, int64_t now)
{
    uint64_t left = (uint64_t)end - (uint64_t)now;
    printf("%s %" PRIu64 " days, %02" PRIu64 ":%02" PRIu64 ":%02" PRIu64 "\n", what, left / 86400, left % 86400 / 3600, left % 3600 / 60,
           left % 60);
}

/* The board: its places, and how many of them have a plug-in. */
static struct seqtullo_deadline places[SEQTULLO_MAX_PLACES];
static size_t count;

static void join(struct seqtullo_deadline joining)
{
    struct seqtullo_board_answer a = seqtullo_board_join(places, SEQTULLO_MAX_PLACES, count, joining);
    if (a.number != 0)
        printf("refused by the board: %" PRIu32 " (%s)\n", a.number, word(a.number));
    else
        count = a.count;
}

/* Takes out the plug-ins whose time has come. */
static void stop(int64_t now)
{
    struct seqtullo_board_answer a = seqtullo_board_next(places, SEQTULLO_MAX_PLACES, count);
    while (a.count > 0 && a.next.moment <= now) {
        printf("plug-in %" PRIu32 " has stopped\n", a.next.id);
        a = seqtullo_board_leave(places, SEQTULLO_MAX_PLACES, count, a.next.id);
        if (a.number != 0)
            return;
        count = a.count;
    }
}

static void show_next(int64_t now)
{
    struct seqtullo_board_answer a = seqtullo_board_next(places, SEQTULLO_MAX_PLACES, count);
    if (a.count > 0) {
        printf("plug-in %" PRIu32 " stops next", a.next.id);
        show_left(", in", a.next.moment, now);
    }
}

static void show_record(struct seqtullo_answer a, int64_t now, uint32_t id)
{
    uint8_t out[SEQTULLO_TEXT];
    struct seqtullo_written w = seqtullo_write(a.record, out, sizeof out);
    struct seqtullo_moment end = seqtullo_unix_seconds(a.record);
    printf("ends at %.*s\n", (int)w.length, (const char *)out);
    if (end.seconds <= now) {
        printf("the run is over\n");
        return;
    }
    show_left("the run may go on for", end.seconds, now);
    join((struct seqtullo_deadline){id, end.seconds, a.record.nanosecond});
}

int main(void)
{
    static char line[5000];
    for (uint32_t id = 1; fgets(line, sizeof line, stdin); id++) {
        line[strcspn(line, "\n")] = 0;
        int64_t now = (int64_t)time(NULL);
        struct seqtullo_answer base = seqtullo_from_unix_seconds(now, 0, 0);
        struct seqtullo_answer a = seqtullo_read_text((const uint8_t *)line, strlen(line), base.record);
        stop(now);
        if (a.number == 0)
            show_record(a, now, id);
        else
            show_refusal(line, a);
        show_next(now);
    }
    return 0;
}
