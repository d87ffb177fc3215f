/* What the header says of the floating-point environment, shown: under another rounding some deviations weigh otherwise and every sheet
 * is the same; with a trap unmasked a short file ends the process; under the default environment neither happens.
 *
 *     floats PACK   files of packaging/cross/pack.py
 */
/* SPDX-License-Identifier: LicenseRef-Wengeludo */
#define _GNU_SOURCE
#include "wengeludo_balance.h"

#include <fenv.h>
#include <math.h>
#include <signal.h>
#include <stdio.h>
#include <string.h>
#include <sys/wait.h>
#include <unistd.h>

static const int modes[] = {FE_UPWARD, FE_DOWNWARD, FE_TOWARDZERO};
static uint8_t pack[16 << 20];

static void high_first(uint8_t *out, const void *in, int bytes)
{
    for (int k = 0; k < bytes; k++)
        out[k] = ((const uint8_t *)in)[bytes - 1 - k];
}

/* The weight that a deviation gets, 0 if it is refused. */
static int weight_of(double deviation)
{
    uint8_t file[] = {1, 1, 0x21, 0, 1, 0x42, 0xC8, 0, 0, 0, 0, 0, 0, 0, 0, 0, 0, 4, 1}, plant[WENGELUDO_FILE_SIZE];
    size_t written;
    high_first(file + 9, &deviation, 8);
    return wengeludo_plant_from_transmitter(file, sizeof file, plant, sizeof plant, &written) ? 0 : plant[5] << 8 | plant[6];
}

/* How many of 5,000 deviations about the edges of the weights get another weight in another rounding. */
static int weigh_otherwise(void)
{
    int other = 0;
    for (int k = 0; k < 5000; k++) {
        double deviation = sqrt(1000.0 / (1 + k / 5));
        for (int step = 0; step < k % 5 - 2; step++)
            deviation = nextafter(deviation, 100);
        for (int step = 0; step < 2 - k % 5; step++)
            deviation = nextafter(deviation, 0);
        const int weight = weight_of(deviation);
        int differs = 0;
        for (int m = 0; m < 3; m++) {
            fesetround(modes[m]);
            differs |= weight_of(deviation) != weight;
            fesetround(FE_TONEAREST);
        }
        other += differs;
    }
    return other;
}

struct answer {
    uint8_t refusal, sheet[WENGELUDO_SHEET_SIZE];
    size_t written;
};

static void balanced(const uint8_t *file, size_t length, struct answer *a)
{
    uint32_t lasts[WENGELUDO_OFFICES] = {0};
    uint64_t marked;
    memset(a, 0, sizeof *a);
    a->refusal = wengeludo_balance_plant(file, length, 0, lasts, WENGELUDO_OFFICES, a->sheet, sizeof a->sheet, &a->written, &marked);
}

/* How many files of the pack have another sheet, or another refusal, in another rounding. */
static int other_sheets(size_t read, int *files)
{
    int other = 0;
    for (size_t at = 0, length; at + 4 <= read; at += 4 + length, ++*files) {
        static struct answer nearest, rounded;
        length = (size_t)pack[at] << 24 | (size_t)pack[at + 1] << 16 | (size_t)pack[at + 2] << 8 | pack[at + 3];
        balanced(pack + at + 4, length, &nearest);
        for (int m = 0; m < 3; m++) {
            fesetround(modes[m]);
            balanced(pack + at + 4, length, &rounded);
            fesetround(FE_TONEAREST);
            other += memcmp(&nearest, &rounded, sizeof nearest) != 0;
        }
    }
    return other;
}

/* The signal that ends a process whose host traps divisions by zero, 0 if none does. */
static int trapped(int excepts)
{
    const pid_t child = fork();
    int status = 0;
    if (child == 0) {
        feclearexcept(FE_ALL_EXCEPT);
        if (excepts)
            feenableexcept(excepts);
        weight_of(1e-200);
        _exit(0);
    }
    waitpid(child, &status, 0);
    return WIFSIGNALED(status) ? WTERMSIG(status) : 0;
}

int main(int count, char **words)
{
    FILE *in = count == 2 ? fopen(words[1], "rb") : NULL;
    const size_t read = in != NULL ? fread(pack, 1, sizeof pack, in) : 0;
    int files = 0;
    const int weights = weigh_otherwise(), sheets = other_sheets(read, &files), masked = trapped(0), unmasked = trapped(FE_DIVBYZERO);
    printf("floats: %d of 5000 deviations weigh otherwise under another rounding; of %d files %d have another sheet; traps masked: signal %d, "
           "unmasked: signal %d\n", weights, files, sheets, masked, unmasked);
    return !(weights > 0 && files > 0 && sheets == 0 && masked == 0 && unmasked == SIGFPE);
}
