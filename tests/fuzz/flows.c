/* Flows found elsewhere, of plants with wide weights: the check against its rules by products in 128 bits.
 *
 * An input: units, count, a slice that is cut (0 to 9; else none) and its length; then for each place 3 bytes, a number as below; then
 * for each stream from, to, 1 byte of flags, and 3 bytes each for weight, flow, off, low and high: 1 byte of an exponent, its highest bit
 * the sign, and 2 bytes. Where the first byte of all is even, every second stream runs back what the one before it brings, and readings
 * are such that the numbers show the flow, `off` aside: so the search finds flows that pass.
 */
/* SPDX-License-Identifier: LicenseRef-Wengeludo */
#include "target.h"

__extension__ typedef __int128 wide;

enum { HEAD = 4, NUMBER = 3, STREAM = 3 + 5 * NUMBER, MOST = 112, SLICES = 10, PLACES = 256 };

struct flow {
    uint8_t units, from[MOST], to[MOST], metered[MOST], ranged[MOST];
    uint64_t weight[MOST];
    int64_t reading[MOST], low[MOST], high[MOST], flow[MOST], numbers[PLACES];
    size_t count, there, lengths[SLICES];
};

/* A number of 64 bits from three bytes. */
static int64_t number(const uint8_t *at)
{
    uint64_t size = (at[0] & 127) < 64 ? field(at + 1, 2) << (at[0] & 63) : UINT64_MAX << (at[0] & 63);
    return (int64_t)(at[0] & 128 ? 0 - size : size);
}

/* The nearest whole number to a difference over twice a weight. */
static int64_t off_by(wide difference, uint64_t weight)
{
    wide twice = 2 * (wide)weight, q = (difference + (wide)weight) / twice;
    return (int64_t)(q - ((difference + (wide)weight) % twice < 0));
}

static void read_stream(struct flow *f, size_t k, const uint8_t *at, int made)
{
    f->from[k] = made && k % 2 ? f->to[k - 1] : at[0];
    f->to[k] = made && k % 2 ? f->from[k - 1] : at[1];
    f->metered[k] = at[2] & 3;
    f->ranged[k] = at[2] & 12;
    f->weight[k] = (uint64_t)number(at + 3) & (made ? (UINT64_C(1) << 41) - 1 : UINT64_MAX);
    f->flow[k] = made && k % 2 ? f->flow[k - 1] : number(at + 6);
    f->reading[k] = number(at + 9);
    f->low[k] = number(at + 12);
    f->high[k] = number(at + 15);
    if (!made || f->weight[k] == 0)
        return;
    wide difference = (wide)f->numbers[f->to[k]] - f->numbers[f->from[k]];
    wide reading = (wide)f->flow[k] - off_by(difference, f->weight[k]) - f->reading[k];
    f->reading[k] = (int64_t)reading;
    f->low[k] = (int64_t)((uint64_t)f->flow[k] - ((uint64_t)f->low[k] & 0xFFFFFFFF));
    f->high[k] = (int64_t)((uint64_t)f->flow[k] + ((uint64_t)f->high[k] & 0xFFFFFFFF));
}

/* The parts, as many streams as there are bytes for. */
static int read_flow(const uint8_t *data, size_t size, int made, struct flow *f)
{
    if (size < HEAD)
        return 0;
    size_t places = (size_t)data[0] + 1, at = HEAD + NUMBER * places;
    if (size < at)
        return 0;
    memset(f, 0, sizeof *f);
    f->units = data[0];
    for (size_t u = 0; u < places; u++)
        f->numbers[u] = number(data + HEAD + NUMBER * u);
    while (f->there < MOST && size - at >= STREAM) {
        read_stream(f, f->there++, data + at, made);
        at += STREAM;
    }
    f->count = data[1] == 255 ? (size_t)SIZE_MAX : made ? f->there : data[1];
    for (int i = 0; i < SLICES; i++)
        f->lengths[i] = i < SLICES - 1 ? f->there : places;
    if (data[2] < SLICES && data[3] < f->lengths[data[2]])
        f->lengths[data[2]] = data[3];
    return 1;
}

static uint8_t stream_fault(const struct flow *f, size_t k)
{
    if (f->from[k] > f->units || f->to[k] > f->units)
        return WENGELUDO_PLACE;
    if (f->from[k] == f->to[k])
        return WENGELUDO_SAME_PLACE;
    if (!f->metered[k])
        return 0;
    if (f->weight[k] == 0 || f->weight[k] > WENGELUDO_MAX_WIDE_WEIGHT)
        return WENGELUDO_WEIGHT;
    if (f->reading[k] < -WENGELUDO_MAX_WIDE_READING || f->reading[k] > WENGELUDO_MAX_WIDE_READING)
        return WENGELUDO_READING;
    return f->ranged[k] && f->low[k] > f->high[k] ? WENGELUDO_RANGE : 0;
}

static int stream_shown(const struct flow *f, size_t k)
{
    wide difference = (wide)f->numbers[f->to[k]] - f->numbers[f->from[k]], d = (wide)f->flow[k] - f->reading[k];
    if (f->flow[k] < -WENGELUDO_MAX_WIDE_FLOW || f->flow[k] > WENGELUDO_MAX_WIDE_FLOW)
        return 0;
    if (!f->metered[k])
        return difference == 0;
    if (f->ranged[k] && (f->flow[k] < f->low[k] || f->flow[k] > f->high[k]))
        return 0;
    int at_low = f->ranged[k] && f->flow[k] == f->low[k], at_high = f->ranged[k] && f->flow[k] == f->high[k];
    return (at_low || (wide)f->weight[k] * (2 * d - 1) <= difference) && (at_high || difference <= (wide)f->weight[k] * (2 * d + 1));
}

static int numbers_shown(const struct flow *f)
{
    for (size_t u = 0; u <= f->units; u++)
        if (f->numbers[u] < -WENGELUDO_MAX_WIDE_NUMBER || f->numbers[u] > WENGELUDO_MAX_WIDE_NUMBER)
            return 0;
    return 1;
}

static int balanced(const struct flow *f)
{
    wide net[PLACES] = {0}, off = 0;
    for (size_t k = 0; k < f->count; k++) {
        net[f->to[k]] += f->flow[k];
        net[f->from[k]] -= f->flow[k];
    }
    for (size_t u = 0; u < PLACES; u++)
        off |= net[u];
    return off == 0;
}

static uint8_t due(const struct flow *f)
{
    int shown = 1;
    for (int i = 0; i < SLICES; i++)
        if (f->lengths[i] < (i < SLICES - 1 ? f->count : (size_t)f->units + 1))
            return WENGELUDO_SLICE_TOO_SHORT;
    if (f->units == 0 || f->units > WENGELUDO_MAX_UNITS)
        return WENGELUDO_UNITS;
    if (f->count > WENGELUDO_MAX_STREAMS)
        return WENGELUDO_TOO_MANY_STREAMS;
    for (size_t k = 0; k < f->count; k++)
        if (stream_fault(f, k))
            return stream_fault(f, k);
    for (size_t k = 0; k < f->count; k++)
        shown &= stream_shown(f, k);
    return shown && numbers_shown(f) && balanced(f) ? WENGELUDO_DONE : WENGELUDO_RULE_BROKEN;
}

/* A slice at the end of its area, so that nothing behind it can be read. */
static void *lend(int slice, const void *values, size_t count, size_t size)
{
    static uint8_t *ends[SLICES];
    if (!ends[slice])
        ends[slice] = area();
    return memcpy(ends[slice] - count * size, values, count * size);
}

static uint8_t call(const struct flow *f)
{
    const size_t *n = f->lengths;
    return wengeludo_check_flow(f->units, f->count, lend(0, f->from, n[0], 1), n[0], lend(1, f->to, n[1], 1), n[1],
                                lend(2, f->metered, n[2], 1), n[2], lend(3, f->weight, n[3], 8), n[3], lend(4, f->reading, n[4], 8), n[4],
                                lend(5, f->ranged, n[5], 1), n[5], lend(6, f->low, n[6], 8), n[6], lend(7, f->high, n[7], 8), n[7],
                                lend(8, f->flow, n[8], 8), n[8], lend(9, f->numbers, n[9], 8), n[9]);
}

void check_flow(const uint8_t *data, size_t size, uint8_t choice)
{
    static struct flow f;
    if (!read_flow(data, size, choice % 2 == 0, &f))
        return;
    uint8_t returned = call(&f);
    if (returned != due(&f))
        fail("the check of a flow returns another number than the rules give");
    seen(OF_FLOW + returned);
}
