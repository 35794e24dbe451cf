/* Reads texts and a packet under one base, and writes each record or refusal. */
#include "seqtullo.h"

#include <stdio.h>
#include <string.h>

static void show(const char *what, struct seqtullo_answer a)
{
    uint8_t out[SEQTULLO_TEXT];
    struct seqtullo_written w = seqtullo_write(a.record, out, sizeof out);
    if (a.number == 0 && w.number == 0)
        printf("%s: %.*s\n", what, (int)w.length, (const char *)out);
    else
        printf("%s: refused with %u at %u\n", what, (unsigned)(a.number ? a.number : w.number), (unsigned)a.place);
}

int main(void)
{
    static const char *const texts[] = {"2024-01-31 +1 month", "10:00 +2 hours", "10:00 sept. 3"};
    /* One item: the header, then a weekday, 0 for Monday, and the amount -1 for the last one. */
    static const uint8_t last_monday[SEQTULLO_PACKET_HEADER + SEQTULLO_PACKET_ITEM] = {
        1, 0, 8, 0, 0, 0, 36, 0,
        SEQTULLO_KIND_WEEKDAY, 0, 0, 0, 0, 0, 0, 0, 0, 0, 0, 0, 0, 0, 0, 0, 0, 0, 0, 0, 255, 255, 255, 255, 255, 255, 255, 255,
    };
    /* A base that is refused would be refused again by each call. */
    struct seqtullo_answer base = seqtullo_new(2024, 3, 13, 9, 30, 0, 0, 0);
    for (size_t i = 0; i < sizeof texts / sizeof *texts; i++)
        show(texts[i], seqtullo_read_text((const uint8_t *)texts[i], strlen(texts[i]), base.record));
    show("2020-W53-5", seqtullo_read_profile((const uint8_t *)"2020-W53-5", 10, base.record));
    show("last Monday", seqtullo_read_packet(last_monday, sizeof last_monday, base.record));
    return 0;
}
