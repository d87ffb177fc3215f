/* How many sheets a second of processor the rows function draws, and what it adds to the calls below it (bench.sh).
 *
 * The same rows twice: by rows_balance, and by the calls alone over transmitter files that were made before the clock started.
 */
/* SPDX-License-Identifier: LicenseRef-Wengeludo */
#include <stdio.h>
#include <stdlib.h>
#include <string.h>
#include <time.h>

#include "rows.h"
#include "wengeludo_balance.h"

enum { ROWS = 8192, TURNS = 5 };

static uint64_t state = 88172645463325252u;

static uint64_t drawn(uint64_t below)
{
    state ^= state << 13;
    state ^= state >> 7;
    state ^= state << 17;
    return state % below;
}

typedef struct {
    uint8_t from[96], to[96], metered[96];
    rows_plant plant;
    float *values;
    double *deviations;
    uint8_t *status, *sent;
    size_t *lengths;
} site;

/* A chain of units from outside to outside, and streams across it; balanced flows are rings through the chain. */
static void draw_site(site *made, uint8_t units, size_t streams, size_t meters)
{
    made->plant = (rows_plant){units, streams, made->from, made->to, NULL, NULL, NULL, NULL, 0};
    memset(made->metered, 0, sizeof made->metered);
    for (size_t k = 0; k < streams; k++) {
        made->from[k] = (uint8_t)(k <= units ? k : drawn(units + 1u));
        made->to[k] = (uint8_t)(k <= units ? (k + 1) % (units + 1u) : (made->from[k] + 1 + drawn(units)) % (units + 1u));
    }
    for (size_t left = meters; left;) {
        const size_t k = drawn(streams);
        left -= !made->metered[k];
        made->metered[k] = 1;
    }
}

static void *room(size_t bytes)
{
    void *memory = calloc(bytes, 1);
    if (!memory)
        abort();
    return memory;
}

/* Flow of a row: a ring through the chain for each stream across it, its weight drawn once. */
static void draw_row(site *made, size_t row, const double *weight)
{
    const size_t n = made->plant.streams, units = made->plant.units;
    double flow[96] = {0};
    for (size_t k = 0; k < n; k++) {
        const double ring = 3000 + (double)(((k > units ? k : 0) * 977 + row / 24 * 31) % 9000);
        flow[k] += ring;
        for (size_t at = made->to[k]; k > units && at != made->from[k]; at = made->to[at])
            flow[at] += ring;
    }
    for (size_t k = 0; k < n; k++) {
        const double noise = ((double)drawn(2001) - 1000) / 577 / weight[k];
        made->values[row * n + k] = (float)(int)(flow[k] + noise);
        made->status[row * n + k] = made->metered[k] && drawn(100) ? WENGELUDO_MEASURED : WENGELUDO_FAULT;
    }
}

static void put(uint8_t **at, uint64_t bits, int bytes)
{
    while (bytes--)
        *(*at)++ = (uint8_t)(bits >> (8 * bytes));
}

static void sent(site *made, size_t row)
{
    const size_t n = made->plant.streams;
    uint8_t *file = made->sent + row * WENGELUDO_TRANSMITTER_SIZE, *at = file;
    put(&at, 0x01, 1), put(&at, made->plant.units, 1);
    for (size_t k = 0; k < n; k++) {
        uint32_t value;
        uint64_t deviation;
        memcpy(&value, made->values + row * n + k, 4), memcpy(&deviation, made->deviations + k, 8);
        put(&at, made->status[row * n + k], 1), put(&at, made->from[k], 1), put(&at, made->to[k], 1);
        if (made->status[row * n + k] != WENGELUDO_FAULT)
            put(&at, value, 4), put(&at, deviation, 8);
    }
    put(&at, 0x04, 1), put(&at, n, 1);
    made->lengths[row] = (size_t)(at - file);
}

static void draw_rows(site *made)
{
    const size_t n = made->plant.streams;
    double weight[96];
    made->values = room(ROWS * n * sizeof *made->values), made->deviations = room(n * sizeof *made->deviations);
    made->status = room(ROWS * n), made->sent = room(ROWS * WENGELUDO_TRANSMITTER_SIZE), made->lengths = room(ROWS * sizeof *made->lengths);
    for (size_t k = 0; k < n; k++)
        made->deviations[k] = 5.0 + (double)drawn(26), weight[k] = 1 / made->deviations[k];
    for (size_t row = 0; row < ROWS; row++)
        draw_row(made, row, weight), sent(made, row);
}

static uint8_t calls(const site *made, size_t row, uint8_t *verdict)
{
    uint8_t plant[WENGELUDO_FILE_SIZE], sheet[WENGELUDO_SHEET_SIZE], kinds[96], kind, office, degrees;
    int64_t flows[96];
    uint32_t lasts[WENGELUDO_OFFICES] = {0}, number;
    uint64_t marked, cost;
    size_t length, written, count;
    if (wengeludo_plant_from_transmitter(made->sent + row * WENGELUDO_TRANSMITTER_SIZE, made->lengths[row], plant, sizeof plant, &length))
        return 1;
    if (wengeludo_balance_plant(plant, length, 0, lasts, WENGELUDO_OFFICES, sheet, sizeof sheet, &written, &marked))
        return 1;
    return wengeludo_read_sheet(sheet, written, kinds, 96, flows, 96, &count, &kind, &office, &number, &cost, &degrees, verdict);
}

static double seconds(void)
{
    struct timespec at;
    clock_gettime(CLOCK_PROCESS_CPUTIME_ID, &at);
    return (double)at.tv_sec + (double)at.tv_nsec / 1e9;
}

static void measure(uint8_t units, size_t streams, size_t meters)
{
    site made;
    draw_site(&made, units, streams, meters);
    draw_rows(&made);
    rows_in in = {made.values, made.deviations, 0, made.status};
    rows_out out = {.refusal = room(ROWS), .flows = room(ROWS * streams * 8), .kinds = room(ROWS * streams), .cost = room(ROWS * 8),
                    .degrees = room(ROWS), .verdict = room(ROWS)};
    double best = 1e9, below = 1e9;
    size_t fails = 0, refused = 0;
    for (int turn = 0; turn < TURNS; turn++) {
        double start = seconds();
        refused = rows_balance(&made.plant, &in, &out, 0, ROWS);
        double took = seconds() - start;
        best = took < best ? took : best;
        start = seconds();
        fails = 0;
        for (size_t row = 0; row < ROWS; row++) {
            uint8_t verdict = 0;
            refused += calls(&made, row, &verdict);
            fails += verdict == WENGELUDO_FAIL;
        }
        took = seconds() - start;
        below = took < below ? took : below;
    }
    printf("%zu streams: %.0f sheets a second of processor; the calls alone %.0f; the layer adds %.0f %% (%zu of %d rows fail, %zu refused)\n", streams,
           ROWS / best, ROWS / below, 100 * (best / below - 1), fails, ROWS, refused);
}

int main(void)
{
    measure(13, 26, 17);
    measure(32, 96, 64);
    return 0;
}
