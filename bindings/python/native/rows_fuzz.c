/* Drawn plants and rows, tame and wild, each array exactly as long as it must be: under ASan and UBSan (sanitize.sh) a byte past an
 * array ends the run. Every sheet that is not refused must pass the proved check.
 */
/* SPDX-License-Identifier: LicenseRef-Wengeludo */
#include <stdio.h>
#include <stdlib.h>
#include <string.h>

#include "rows.h"
#include "wengeludo_balance.h"

enum { ROWS = 3, MOST = 3, NUMBERS = 32 };

static uint64_t state = 88172645463325252u;

static uint64_t drawn(uint64_t below)
{
    state ^= state << 13;
    state ^= state >> 7;
    state ^= state << 17;
    return state % below;
}

static void *room(size_t count, size_t size)
{
    void *memory = malloc(count && size ? count * size : 1);
    if (!memory)
        abort();
    memset(memory, 0xAA, count * size);
    return memory;
}

typedef struct {
    rows_plant plant;
    uint8_t *from, *to, *ranged;
    int32_t *low, *high;
    uint16_t *rates;
    int wild;
} drawn_plant;

static void draw_stream(drawn_plant *made, size_t k)
{
    const uint64_t places = made->plant.units + 1u;
    made->from[k] = (uint8_t)drawn(made->wild ? 256 : places);
    made->to[k] = (uint8_t)drawn(made->wild ? 256 : places);
    if (!made->wild && made->from[k] == made->to[k])
        made->to[k] = (uint8_t)((made->from[k] + 1u) % places);
    made->ranged[k] = drawn(4) == 0;
    made->low[k] = (int32_t)drawn(20000) - 10000;
    made->high[k] = made->low[k] + (int32_t)drawn(20000) - (made->wild ? 100 : 0);
    made->plant.charged += made->to[k] == 0;
}

static void draw_plant(drawn_plant *made)
{
    const size_t n = drawn(97);
    made->wild = drawn(8) == 0;
    made->from = room(n, 1), made->to = room(n, 1), made->ranged = room(n, 1);
    made->low = room(n, sizeof *made->low), made->high = room(n, sizeof *made->high);
    made->plant = (rows_plant){(uint8_t)drawn(34), n, made->from, made->to, NULL, made->low, made->high, NULL, 0};
    made->plant.ranged = drawn(2) ? made->ranged : NULL;
    for (size_t k = 0; k < n; k++)
        draw_stream(made, k);
    made->rates = room(made->plant.charged, sizeof *made->rates);
    for (size_t k = 0; k < made->plant.charged; k++)
        made->rates[k] = (uint16_t)drawn(10001);
    made->plant.rates = made->rates;
}

static void free_plant(drawn_plant *made)
{
    free(made->from), free(made->to), free(made->ranged), free(made->low), free(made->high), free(made->rates);
}

static float value(int wild)
{
    const uint32_t bits = (uint32_t)drawn(UINT64_C(1) << 32);
    float made = (float)drawn(30000) - 5000;
    if (wild && drawn(4) == 0)
        memcpy(&made, &bits, sizeof made);
    return made;
}

static rows_in draw_cells(const drawn_plant *made)
{
    const size_t n = made->plant.streams, step = drawn(2) ? n : 0, cells = ROWS * n;
    float *values = room(cells, sizeof *values);
    double *deviations = room(step ? cells : n, sizeof *deviations);
    uint8_t *status = room(cells, 1);
    for (size_t k = 0; k < cells; k++) {
        values[k] = value(made->wild);
        status[k] = (uint8_t)(made->wild && drawn(50) == 0 ? drawn(256) : 0x21 + drawn(3));
        if (k < (step ? cells : n))
            deviations[k] = made->wild && drawn(9) == 0 ? -1.0 : 1.0 + (double)drawn(3000) / 100.0;
    }
    return (rows_in){values, deviations, step, status};
}

static rows_out room_for(const rows_plant *plant, int all)
{
    const size_t n = plant->streams;
    rows_out out = {.refusal = room(ROWS, 1), .flows = room(ROWS * n, 8), .kinds = room(ROWS * n, 1), .cost = room(ROWS, 8)};
    out.degrees = room(ROWS, 1), out.verdict = room(ROWS, 1);
    if (!all)
        return out;
    out.most = MOST, out.dropped = room(ROWS * MOST, 1), out.dropped_flow = room(ROWS * MOST, 8), out.dropped_cost = room(ROWS * MOST, 8);
    out.cleared = room(ROWS, 1), out.cents = room(ROWS * plant->charged, 8), out.bill = room(ROWS, 8), out.unbilled = room(ROWS, 1);
    out.numbers = room(ROWS * WENGELUDO_MAX_PLACES, 8), out.checked = room(ROWS, 1);
    return out;
}

static void free_out(rows_out *out)
{
    free(out->refusal), free(out->flows), free(out->kinds), free(out->cost), free(out->degrees), free(out->verdict);
    free(out->dropped), free(out->dropped_flow), free(out->dropped_cost), free(out->cleared), free(out->cents), free(out->bill);
    free(out->unbilled), free(out->numbers), free(out->checked);
}

static int one_round(size_t *counts)
{
    drawn_plant made;
    int wrong = 0;
    draw_plant(&made);
    rows_in in = draw_cells(&made);
    rows_out out = room_for(&made.plant, drawn(4) != 0);
    const size_t refused = rows_balance(&made.plant, &in, &out, 0, ROWS);
    size_t told = 0;
    for (size_t row = 0; row < ROWS; row++) {
        counts[out.refusal[row] % NUMBERS]++;
        told += out.refusal[row] != 0;
        wrong |= !out.refusal[row] && out.checked && out.checked[row];
    }
    free((void *)in.values), free((void *)in.deviations), free((void *)in.status);
    free_out(&out);
    free_plant(&made);
    return wrong || told != refused;
}

int main(int count, char **words)
{
    const long rounds = count > 1 ? atol(words[1]) : 2000;
    size_t counts[NUMBERS] = {0};
    for (long round = 0; round < rounds; round++)
        if (one_round(counts)) {
            printf("round %ld: a sheet does not pass the check, or the count of refusals is wrong\n", round);
            return 1;
        }
    printf("%ld rows:", rounds * ROWS);
    for (int k = 0; k < NUMBERS; k++)
        if (counts[k])
            printf(" %d: %zu", k, counts[k]);
    printf("\n");
    return counts[0] == 0;
}
