/* Times the survey of meter layouts on plants of 12 streams: a path, a star, a plant of 4 places, a path from the last place, a
 * ring of 6 places twice. Prints for each the least and the mean processor time of 300 calls, in microseconds.
 *
 *     cc -O2 -I include programs/time_layouts.c target/staticlib/libwengeludo.a -o target/built/time_layouts
 */
/* SPDX-License-Identifier: LicenseRef-Wengeludo */
#include <stdio.h>
#include <time.h>

#include "wengeludo_balance.h"

enum { STREAMS = WENGELUDO_MAX_SURVEYED, CALLS = 300 };

static double now_us(void)
{
    struct timespec t;
    clock_gettime(CLOCK_PROCESS_CPUTIME_ID, &t);
    return (double)t.tv_sec * 1e6 + (double)t.tv_nsec / 1e3;
}

int main(void)
{
    static const char *const names[] = {"path", "star", "four places", "far path", "ring twice"};
    for (int shape = 0; shape < 5; shape++) {
        uint8_t file[2 + 3 * STREAMS + 2] = {0x01, WENGELUDO_MAX_UNITS};
        for (int k = 0; k < STREAMS; k++) {
            const int from[] = {k, 0, k % 4, 32 - k, k % 6}, to[] = {k + 1, k + 1, (k + 1 + k / 4) % 4, 31 - k, (k + 1) % 6};
            file[2 + 3 * k] = 0x03;
            file[3 + 3 * k] = (uint8_t)from[shape];
            file[4 + 3 * k] = (uint8_t)(to[shape] == from[shape] ? (to[shape] + 1) % 4 : to[shape]);
        }
        file[2 + 3 * STREAMS] = 0x04;
        file[3 + 3 * STREAMS] = STREAMS;
        uint16_t counts[WENGELUDO_SURVEY_SIZE];
        size_t count;
        double least = 1e18, first = now_us();
        for (int i = 0; i < CALLS; i++) {
            double start = now_us();
            if (wengeludo_layouts_of(file, sizeof file, counts, WENGELUDO_SURVEY_SIZE, &count) != 0)
                return 1;
            double taken = now_us() - start;
            least = taken < least ? taken : least;
        }
        printf("%s: least %.0f, mean %.0f\n", names[shape], least, (now_us() - first) / CALLS);
    }
    return 0;
}
