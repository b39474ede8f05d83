/* Times the library's judge and make beside the same calls in plain C, on the
 * longest table file. Both are compared first: a fast wrong answer is no use. */
#define _POSIX_C_SOURCE 200809L
#include <inttypes.h>
#include <stdint.h>
#include <stdio.h>
#include <stdlib.h>
#include <string.h>
#include <time.h>

#include "plain.h"
#include "tovleng.h"

#define ABSENT 0xFFFFFFFFu

enum { ROUNDS = 5, LOADS = 64 };

/* Five rounds of this length are about one second for each call. */
static const double round_seconds = 0.2;

typedef uint64_t judge_call(const uint8_t *, size_t);
typedef uint64_t make_call(const uint8_t *, size_t, uint64_t, uint8_t *, size_t);

/* A base and fifteen others, spread over the range of sizes. */
static const uint32_t long_row[16] = {
    4096, 1009, 4099, 8101, 12007, 17011, 21001, 26003, 30011,
    35023, 40009, 45007, 50021, 55001, 60013, 65521
};

static uint8_t good[TOVLENG_FILE_MAX];
static uint8_t bad[TOVLENG_FILE_MAX + 1];
static unsigned long compared;

/* A small generator of its own, so that each run has the same inputs. */
static uint64_t state = 88172645463325252u;

static uint32_t random_below(uint32_t bound)
{
    state ^= state << 13;
    state ^= state >> 7;
    state ^= state << 17;
    return (uint32_t)((state >> 16) % bound);
}

/* Writes the file of a row, its table found by lowering entries until none can
 * be lowered: slow, and too simple to be wrong. Answers the length. */
static size_t write_file(uint8_t *file, const uint32_t *row, uint32_t units)
{
    static uint32_t table[4096];
    uint32_t m = row[0], r, i;
    size_t at = 0;
    int changed = 1;

    for (r = 0; r < m; r++)
        table[r] = ABSENT;
    table[0] = 0;
    while (changed) {
        changed = 0;
        for (r = 0; r < m; r++) {
            if (table[r] == ABSENT)
                continue;
            for (i = 1; i < units; i++) {
                uint32_t sum = table[r] + row[i];

                if (sum < table[sum % m]) {
                    table[sum % m] = sum;
                    changed = 1;
                }
            }
        }
    }

    memcpy(file, "RTB\0\1", 5);
    at = 5;
    file[at++] = (uint8_t)units;
    for (i = 0; i < units; i++) {
        file[at++] = (uint8_t)(row[i] >> 8);
        file[at++] = (uint8_t)row[i];
    }
    for (r = 0; r < m; r++) {
        file[at++] = (uint8_t)(table[r] >> 24);
        file[at++] = (uint8_t)(table[r] >> 16);
        file[at++] = (uint8_t)(table[r] >> 8);
        file[at++] = (uint8_t)table[r];
    }
    return at;
}

static void differ(const char *call, uint64_t load, uint64_t ours, uint64_t plain)
{
    printf("%s differs, load %" PRIu64 ": library %" PRIu32 " %" PRIu32
           ", plain %" PRIu32 " %" PRIu32 "\n", call, load,
           tovleng_number(ours), tovleng_place(ours), tovleng_number(plain), tovleng_place(plain));
    exit(1);
}

static uint64_t compare_judge(const uint8_t *file, size_t length)
{
    uint64_t ours = tovleng_judge(file, length);
    uint64_t plain = plain_judge(file, length);

    compared++;
    if (ours != plain)
        differ("judge", 0, ours, plain);
    return ours;
}

static void compare_make(const uint8_t *file, size_t length, uint64_t load, size_t out_length)
{
    uint8_t a[TOVLENG_OUT_MAX + 8], b[TOVLENG_OUT_MAX + 8];
    uint64_t ours, plain;

    memset(a, 0xA5, sizeof a);
    memset(b, 0xA5, sizeof b);
    ours = tovleng_make(file, length, load, a, out_length);
    plain = plain_make(file, length, load, b, out_length);
    compared++;
    if (ours != plain || memcmp(a, b, sizeof a) != 0)
        differ(ours != plain ? "make" : "make's output", load, ours, plain);
}

/* Copies of a file with one byte changed, cut, or lengthened. */
static void compare_damaged(const uint8_t *file, size_t length, size_t header, size_t stride)
{
    static const uint8_t flips[] = { 0x01, 0x10, 0x80, 0xFF };
    size_t at, i;

    memcpy(bad, file, length);
    bad[length] = 0;
    for (at = 0; at < length; at += at < header ? 1 : stride) {
        for (i = 0; i < sizeof flips; i++) {
            bad[at] = (uint8_t)(file[at] ^ flips[i]);
            compare_judge(bad, length);
            if (at < header || i == 0)
                compare_make(bad, length, random_below(1000000000), 64);
        }
        bad[at] = file[at];
        compare_judge(bad, at);
        compare_make(bad, at, 24, 64);
    }
    compare_judge(bad, length + 1);
    compare_make(bad, length + 1, 24, 64);
}

/* Small rows, with common divisors and without, so that absent entries and
 * sizes below the base come up. */
static void compare_small(void)
{
    static uint8_t file[8 + 2 * 15 + 4 * 64];
    uint32_t row[16], n, i, j;

    for (n = 0; n < 200; n++) {
        uint32_t units = 1 + random_below(5), factor = 1 + random_below(3), size = 0;
        size_t length;

        row[0] = factor * (1 + random_below(20));
        for (i = 1; i < units; i++) {
            size += factor * (1 + random_below(20));
            if (size == row[0])
                size += factor;
            row[i] = size;
        }
        length = write_file(file, row, units);
        if (compare_judge(file, length) != 0) {
            printf("a good small file is refused\n");
            exit(1);
        }
        compare_damaged(file, length, length, 1);
        for (j = 0; j < 200; j++)
            compare_make(file, length, j, 4 * units + j % 3 - (j % 7 == 0));
    }
}

static void compare_all(size_t length)
{
    uint32_t i;

    if (compare_judge(good, length) != 0) {
        printf("the good file is refused\n");
        exit(1);
    }
    compare_damaged(good, length, 38, 61);
    for (i = 0; i < 2048; i++)
        compare_make(good, length, 37 * (uint64_t)i, 64);
    for (i = 0; i < 2048; i++)
        compare_make(good, length, random_below(1000000001), 64 + i % 8);
    for (i = 0; i < 72; i++)
        compare_make(good, length, 999999990 + (uint64_t)i, i);
    compare_make(good, length, UINT64_MAX, 64);
    compare_small();
}

static double now(void)
{
    struct timespec t;

    clock_gettime(CLOCK_MONOTONIC, &t);
    return (double)t.tv_sec + (double)t.tv_nsec * 1e-9;
}

static uint64_t loads[LOADS];
static volatile uint64_t sink; /* the answers are used, so no call is left out */

static double time_judge(judge_call *call, size_t length, unsigned long times)
{
    double start = now();
    unsigned long i;

    for (i = 0; i < times; i++)
        sink += call(good, length);
    return now() - start;
}

static double time_make(make_call *call, size_t length, unsigned long times)
{
    uint8_t out[TOVLENG_OUT_MAX];
    double start = now();
    unsigned long i;

    for (i = 0; i < times; i++) {
        sink += call(good, length, loads[i % LOADS], out, sizeof out);
        sink += out[3];
    }
    return now() - start;
}

/* How often a call fits into one round; whole turns through the loads. */
static unsigned long times_for(double seconds)
{
    double turns = round_seconds / (seconds > 1e-9 ? seconds : 1e-9);

    return LOADS * (turns < 1 ? 1 : (unsigned long)turns);
}

static void report(const char *call, double ours, double plain, unsigned long times)
{
    double a = ours * 1e9 / (double)times, b = plain * 1e9 / (double)times;

    printf("%-5s  library %10.1f ns  plain %10.1f ns  ratio %.2f\n", call, a, b, a / b);
}

int main(void)
{
    size_t length = write_file(good, long_row, 16);
    double judge_ours = 1e9, judge_plain = 1e9, make_ours = 1e9, make_plain = 1e9, t;
    unsigned long judges, makes;
    int i;

    compare_all(length);
    printf("same answers and output bytes in %lu comparisons\n", compared);

    for (i = 0; i < LOADS; i++)
        loads[i] = 100000000 + random_below(900000000);

    judges = times_for(time_judge(plain_judge, length, LOADS));
    makes = times_for(time_make(plain_make, length, LOADS));

    /* The best of rounds in turn: a busy machine slows both alike. */
    for (i = 0; i < ROUNDS; i++) {
        t = time_judge(tovleng_judge, length, judges);
        judge_ours = t < judge_ours ? t : judge_ours;
        t = time_judge(plain_judge, length, judges);
        judge_plain = t < judge_plain ? t : judge_plain;
        t = time_make(tovleng_make, length, makes);
        make_ours = t < make_ours ? t : make_ours;
        t = time_make(plain_make, length, makes);
        make_plain = t < make_plain ? t : make_plain;
    }
    report("judge", judge_ours, judge_plain, judges);
    report("make", make_ours, make_plain, makes);
    return 0;
}
