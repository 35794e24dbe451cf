/* Nanoseconds a call of seqtullo_read_text, by the form of the text, and for the slowest texts that were found; and of seqtullo_read_profile. */
#include "seqtullo.h"

#include <stdio.h>
#include <string.h>
#include <time.h>

static char text[4096];

/* The function that is called. */
static struct seqtullo_answer (*read_it)(const uint8_t *, size_t, struct seqtullo_record) = seqtullo_read_text;

static double now(void)
{
    struct timespec t;
    clock_gettime(CLOCK_MONOTONIC, &t);
    return t.tv_sec * 1e9 + t.tv_nsec;
}

/* The least of eight rounds, each of 20 ms or one call. */
static double least(size_t length, struct seqtullo_answer *answer)
{
    struct seqtullo_record base = {2024, 3, 13, 9, 30, 0, 0, 0};
    double best = 1e18;
    int calls = 1;
    for (int round = 0; round < 8; round++) {
        double start = now();
        for (int i = 0; i < calls; i++)
            *answer = read_it((const uint8_t *)text, length, base);
        double each = (now() - start) / calls;
        if (each < best)
            best = each;
        calls = (int)(2e7 / best) + 1;
    }
    return best;
}

static double row(const char *name, size_t length)
{
    struct seqtullo_answer a;
    double ns = least(length, &a);
    printf("%-52s %5zu %10.0f %8.1f   %u %u\n", name, length, ns, length ? ns / length : 0, a.number, a.place);
    return length ? ns / length : 0;
}

static double ordinary(const char *s)
{
    memcpy(text, s, strlen(s));
    return row(s, strlen(s));
}

/* The two forms of the profile, read as the profile. */
static void profile(void)
{
    static const char *const forms[] = {"2024-03-13", "2024-W11-3"};
    read_it = seqtullo_read_profile;
    for (size_t i = 0; i < sizeof forms / sizeof *forms; i++) {
        char name[40];
        snprintf(name, sizeof name, "%s, read as the profile", forms[i]);
        memcpy(text, forms[i], strlen(forms[i]));
        row(name, strlen(forms[i]));
    }
    read_it = seqtullo_read_text;
}

static double repeated(const char *name, const char *unit, size_t total)
{
    size_t n = 0, u = strlen(unit);
    while (n + u <= total) {
        memcpy(text + n, unit, u);
        n += u;
    }
    return row(name, n);
}

/* Half the bytes open comments, the other half, but for `open` of them, close them. */
static double nested(const char *name, size_t total, size_t open)
{
    memset(text, '(', total / 2);
    memset(text + total / 2, ')', total / 2 - open);
    return row(name, total / 2 * 2 - open);
}

/* Zeros after the ninth digit are all looked at. */
static double zeros(const char *name, size_t total)
{
    memset(text, '0', total);
    memcpy(text, "10:00:00.", 9);
    return row(name, total);
}

int main(void)
{
    static const char *const forms[] = {
        "", "2024-03-13", "20240313", "14 november 2022", "nov 14, 2022", "11/14/2022", "10:00", "3:30 pm", "10:00 +2 hours",
        "2024-01-31 +1 month", "next year", "+1 year -2 months 3 days ago", "2024-03-13 09:30:00.000000000+00:00",
        "2024-03-13 09:30:00.000000000+00:00 +12345 seconds", "sept. 3", "2024-13-01", "10:00:05.5", "10:00:05,123456789 +05:30",
        "10:00:05.123456789000", "10:00:05.123456789012", "-1.5 seconds ago",
    };
    static const char *const units[] = {"(", "()", "(x", "-(", "+", "+ ", " ", "0", "9", "a", "1 ", "1:", "(a)+ ", "+()", "1+"};
    double worst = 0;
    printf("%-52s %5s %10s %8s   answer\n", "text", "bytes", "ns", "ns/byte");
    for (size_t i = 0; i < sizeof forms / sizeof *forms; i++)
        ordinary(forms[i]);
    profile();
    for (size_t total = 256; total <= 4096; total *= 4) {
        for (size_t i = 0; i < sizeof units / sizeof *units; i++) {
            char name[40];
            snprintf(name, sizeof name, "only `%s`", units[i]);
            double w = repeated(name, units[i], total);
            worst = w > worst ? w : worst;
        }
        double w = nested("comments in comments", total, 0);
        worst = w > worst ? w : worst;
        w = nested("comments in comments, the first unclosed", total, 1);
        worst = w > worst ? w : worst;
        w = zeros("a fraction of zeros", total);
        worst = w > worst ? w : worst;
    }
    double w = repeated("64 items `day`", "day ", 256);
    worst = w > worst ? w : worst;
    w = repeated("64 items `+1 day`", "+1 day ", 448);
    worst = w > worst ? w : worst;
    printf("the slowest of these: %.1f ns a byte\n", worst);
    return 0;
}
