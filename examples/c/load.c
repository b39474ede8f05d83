/* Makes one load from the units in a table file: `load FILE LOAD` prints each
 * unit's size and how many of it to fill, or `no NUMBER PLACE` if refused. */
#include <inttypes.h>
#include <stdint.h>
#include <stdio.h>

#include "tovleng.h"

enum { DONE = 0, REFUSED = 1, TROUBLE = 2 };

/* One byte more than the longest true file, so that a longer file is seen to
 * be too long and is not taken for its own beginning. */
static uint8_t file[TOVLENG_FILE_MAX + 1];

/* Reads a number of digits only; strtoull would let signs and spaces pass. */
static int read_load(const char *text, uint64_t *load)
{
    uint64_t value = 0;

    if (*text == '\0')
        return 0;
    for (; *text != '\0'; text++) {
        uint64_t digit;

        if (*text < '0' || *text > '9')
            return 0;
        digit = (uint64_t)(*text - '0');
        if (value > (UINT64_MAX - digit) / 10)
            return 0;
        value = value * 10 + digit;
    }
    *load = value;
    return 1;
}

static int read_file(const char *name, size_t *length)
{
    FILE *stream = fopen(name, "rb");
    int good;

    if (stream == NULL)
        return 0;
    *length = fread(file, 1, sizeof file, stream);
    good = !ferror(stream);
    fclose(stream);
    return good;
}

static int refused(uint64_t answer)
{
    printf("no %" PRIu32 " %" PRIu32 "\n", tovleng_number(answer), tovleng_place(answer));
    return REFUSED;
}

int main(int count, char **words)
{
    uint8_t out[TOVLENG_OUT_MAX];
    uint64_t load, answer;
    size_t length, i, units;

    if (count != 3 || !read_load(words[2], &load)) {
        fprintf(stderr, "usage: load FILE LOAD\n");
        return TROUBLE;
    }
    if (!read_file(words[1], &length)) {
        fprintf(stderr, "load: cannot read %s\n", words[1]);
        return TROUBLE;
    }

    /* Make judges the file too; judging first shows the call and costs little. */
    answer = tovleng_judge(file, length);
    if (answer != 0)
        return refused(answer);
    answer = tovleng_make(file, length, load, out, sizeof out);
    if (answer != 0)
        return refused(answer);

    units = file[5];
    for (i = 0; i < units; i++) {
        const uint8_t *s = file + 6 + 2 * i;
        const uint8_t *n = out + 4 * i;
        uint32_t size = (uint32_t)s[0] << 8 | (uint32_t)s[1];
        uint32_t number = (uint32_t)n[0] << 24 | (uint32_t)n[1] << 16
                        | (uint32_t)n[2] << 8 | (uint32_t)n[3];

        printf("%" PRIu32 " %" PRIu32 "\n", size, number);
    }
    return DONE;
}
