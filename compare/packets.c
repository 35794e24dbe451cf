/* Changes good packets at random and reads them: an answer every time, and the lent bytes as before. */
#define _DEFAULT_SOURCE
#include "seqtullo.h"
#include <stdio.h>
#include <stdlib.h>
#include <string.h>
#include <sys/mman.h>
#include <unistd.h>

enum { MOST = 4096, PACKETS = 1024 };

static uint8_t seeds[PACKETS][MOST];
static size_t lengths[PACKETS];
static size_t seed_count;
static uint64_t state;

static uint64_t next(void)
{
    state ^= state << 13;
    state ^= state >> 7;
    state ^= state << 17;
    return state;
}

static int digit(int c)
{
    return c >= '0' && c <= '9' ? c - '0' : c >= 'a' && c <= 'f' ? c - 'a' + 10 : -1;
}

/* The packets of the list that the gate replays: hexadecimal digits in front of a tab. */
static void load(const char *path)
{
    FILE *f = fopen(path, "r");
    static char line[65536];
    if (!f) {
        perror(path);
        exit(2);
    }
    while (fgets(line, sizeof line, f) && seed_count < PACKETS) {
        char *tab = strchr(line, '\t');
        size_t n = 0;
        int half = -1;
        if (!tab)
            continue;
        for (char *p = line; p < tab; p++) {
            int d = digit(*p);
            if (d < 0)
                continue;
            if (half < 0) {
                half = d;
            } else {
                seeds[seed_count][n++] = (uint8_t)(16 * half + d);
                half = -1;
            }
        }
        lengths[seed_count++] = n;
    }
    fclose(f);
}

static size_t change(uint8_t *packet, size_t length)
{
    static const uint8_t edges[] = {0, 1, 2, 4, 6, 7, 8, 9, 24, 28, 47, 48, 57, 58, 59, 60, 61, 64, 65, 127, 128, 254, 255};
    size_t at = length ? next() % length : 0;
    switch (next() % 8) {
    case 0: /* another byte */
        if (length)
            packet[at] = (uint8_t)next();
        return length;
    case 1: /* a byte at a bound */
        if (length)
            packet[at] = edges[next() % sizeof edges];
        return length;
    case 2: /* one bit */
        if (length)
            packet[at] ^= (uint8_t)(1u << next() % 8);
        return length;
    case 3: /* shorter */
        return length ? next() % length : 0;
    case 4: /* longer */
        if (length < MOST)
            packet[length++] = (uint8_t)next();
        return length;
    case 5: /* a header field */
        if (length >= 8)
            packet[next() % 8] = edges[next() % sizeof edges];
        return length;
    case 6: /* one item in the place of another */
        if (length >= 64) {
            size_t items = (length - 8) / 28;
            uint8_t item[28];
            memcpy(item, packet + 8 + 28 * (next() % items), 28);
            memcpy(packet + 8 + 28 * (next() % items), item, 28);
        }
        return length;
    default: /* an item more, with its header */
        if (length >= 8 && length + 28 <= MOST && packet[1] == 0 && packet[0] < 70) {
            const uint8_t *other = seeds[next() % seed_count] + 8;
            unsigned n = packet[0] + 1u, place = 8 + 28 * n;
            memmove(packet + 36, packet + 8, length - 8);
            memcpy(packet + 8, other, 28);
            packet[0] = (uint8_t)n;
            packet[6] = (uint8_t)place;
            packet[7] = (uint8_t)(place >> 8);
            length += 28;
        }
        return length;
    }
}

static struct seqtullo_record random_base(void)
{
    struct seqtullo_record base = {2024, 3, 13, 9, 30, 0, 0, 0};
    if (next() % 4 == 0) {
        struct seqtullo_answer a = seqtullo_from_unix_seconds((int64_t)next() >> next() % 64, (uint32_t)(next() % 1000000000), (int32_t)(next() % 172801) - 86400);
        if (a.number == 0)
            base = a.record;
    }
    if (next() % 64 == 0)
        base.month = (uint8_t)next();
    return base;
}

int main(int argc, char **argv)
{
    static const struct seqtullo_record blank;
    unsigned long count = argc > 2 ? strtoul(argv[2], NULL, 10) : 5000000;
    unsigned long seen[32] = {0};
    long page = sysconf(_SC_PAGESIZE);
    size_t room = (MOST + (size_t)page - 1) / (size_t)page * (size_t)page;
    uint8_t *ground = mmap(NULL, room + (size_t)page, PROT_READ | PROT_WRITE, MAP_PRIVATE | MAP_ANONYMOUS, -1, 0);
    static uint8_t work[MOST];

    state = (argc > 3 ? strtoull(argv[3], NULL, 10) : 1) * 0x9e3779b97f4a7c15u | 1;
    if (argc < 2 || ground == MAP_FAILED || mprotect(ground + room, (size_t)page, PROT_NONE) != 0)
        return 2;
    load(argv[1]);
    if (seed_count == 0)
        return 2;
    for (unsigned long i = 0; i < count; i++) {
        size_t which = next() % seed_count, length = lengths[which];
        struct seqtullo_record base = random_base();
        struct seqtullo_answer a;
        const char *wrong = NULL;
        memcpy(work, seeds[which], length);
        for (unsigned changes = (unsigned)(next() % 4); changes; changes--)
            length = change(work, length);
        /* The last byte is the last that may be read, and none may be written. */
        uint8_t *packet = ground + room - length;
        memcpy(packet, work, length);
        mprotect(ground, room, PROT_READ);
        a = seqtullo_read_packet(packet, length, base);
        mprotect(ground, room, PROT_READ | PROT_WRITE);
        if (memcmp(packet, work, length) != 0)
            wrong = "the lent bytes changed";
        else if (a.number > 18 || (a.number >= 2 && a.number <= 4))
            wrong = "a number that no packet gets";
        else if (a.number != 0 && memcmp(&a.record, &blank, sizeof blank) != 0)
            wrong = "a refusal without the blank record";
        else if ((a.number < 5 || a.number > 8) && a.place != 0)
            wrong = "a place where none is wanted";
        else if (a.place > 64)
            wrong = "a place past the items";
        else if (a.number == 0 && seqtullo_unix_seconds(a.record).number != 0)
            wrong = "a record that is not accepted";
        if (wrong) {
            printf("%s: packet %lu, number %u, place %u\n", wrong, i, (unsigned)a.number, (unsigned)a.place);
            return 1;
        }
        seen[a.number]++;
    }
    for (unsigned n = 0; n < 32; n++)
        if (seen[n])
            printf("%2u %10lu\n", n, seen[n]);
    printf("%lu packets, every answer well formed\n", count);
    return 0;
}
