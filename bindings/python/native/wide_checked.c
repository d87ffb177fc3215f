/* The solver of the tool with every answer checked: see wide_solve.h. The check of a flow is the proved call; that of the places that
 * are overfull is the count below, in 128 bits, not proved. */
/* SPDX-License-Identifier: LicenseRef-Wengeludo */
#include "wide_solve.h"
#include "wengeludo_balance.h"

#include <string.h>

__extension__ typedef __int128 wide;

static uint8_t check(const wide_plant *plant, const int64_t *flow, const int64_t *number)
{
    size_t count = plant->count;
    return wengeludo_check_flow(plant->units, count, plant->from, count, plant->to, count, plant->metered, count, plant->weight, count,
                                plant->reading, count, plant->ranged, count, plant->low, count, plant->high, count, flow, count,
                                number, (size_t)plant->units + 1);
}

/* Whether every stream across the edge of the marked places has a range, and the lows of those in sum to more than the highs of those
 * out: then no balanced flow lies within all ranges. */
static int overfull(const wide_plant *plant, uint64_t marked)
{
    wide in = 0, out = 0;
    for (size_t k = 0; k < plant->count; k++) {
        int from = marked >> plant->from[k] & 1, to = marked >> plant->to[k] & 1;
        if (from == to)
            continue;
        if (!plant->metered[k] || !plant->ranged[k])
            return 0;
        if (to)
            in += plant->low[k];
        else
            out += plant->high[k];
    }
    return in > out;
}

static uint64_t marks(const wide_plant *plant, const int64_t *number)
{
    uint64_t marked = 0;
    for (int place = 0; place <= plant->units; place++)
        marked |= (uint64_t)(number[place] == 1) << place;
    return marked;
}

static void clear(const wide_plant *plant, int64_t *flow, int64_t *number)
{
    if (plant->count > 0)
        memset(flow, 0, plant->count * sizeof *flow);
    memset(number, 0, ((size_t)plant->units + 1) * sizeof *number);
}

uint8_t wide_checked(const wide_plant *plant, int64_t *flow, int64_t *number, uint64_t *marked)
{
    uint8_t found = wide_solve(plant, flow, number), answer;
    *marked = found == WIDE_NO_FLOW ? marks(plant, number) : 0;
    if (found != WIDE_FOUND)
        clear(plant, flow, number);
    answer = check(plant, flow, number); /* of no flow: the plant's own fault, if it has one */
    if (answer == WIDE_NOT_CERTIFIED && *marked && overfull(plant, *marked))
        return WIDE_NO_FLOW;
    *marked = 0;
    if (answer)
        clear(plant, flow, number);
    return answer;
}

static uint8_t row_checked(const wide_plant *plant, const uint64_t *weight, const int64_t *reading, int64_t *flow, int64_t *number)
{
    uint8_t metered[WIDE_STREAMS] = {0};
    uint64_t marked;
    wide_plant row = *plant;
    row.weight = weight;
    row.reading = reading;
    if (plant->count <= WIDE_STREAMS)
        row.metered = metered;
    for (size_t k = 0; k < plant->count && k < WIDE_STREAMS; k++)
        metered[k] = plant->metered[k] && weight[k];
    return wide_checked(&row, flow, number, &marked);
}

size_t wide_rows(const wide_plant *plant, size_t rows, const uint64_t *weights, const int64_t *readings, int64_t *flows,
                 int64_t *numbers, uint8_t *answers)
{
    size_t passed = 0, count = plant->count, places = (size_t)plant->units + 1;
    for (size_t r = 0; r < rows; r++) {
        size_t at = r * count;
        answers[r] = row_checked(plant, weights + at, readings + at, flows + at, numbers + r * places);
        passed += answers[r] == WIDE_FOUND;
    }
    return passed;
}
