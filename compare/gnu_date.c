/* Reads a text a line under 1970-01-01 00:00:00 at offset 0 and prints its moment and nanosecond, or its refusal as `! number place`. */
#include "seqtullo.h"

#include <stdio.h>
#include <string.h>

int main(void)
{
    static char line[8192];
    struct seqtullo_record base = {1970, 1, 1, 0, 0, 0, 0, 0};
    while (fgets(line, sizeof line, stdin)) {
        size_t length = strlen(line);
        if (length > 0 && line[length - 1] == '\n')
            length--;
        struct seqtullo_answer a = seqtullo_read_text((const uint8_t *)line, length, base);
        if (a.number != 0) {
            printf("! %u %u\n", a.number, a.place);
            continue;
        }
        struct seqtullo_moment m = seqtullo_unix_seconds(a.record);
        printf("%lld.%09u\n", (long long)m.seconds, a.record.nanosecond);
    }
    return 0;
}
