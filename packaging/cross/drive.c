/* Hands every file of a pack to every call and writes all that they hand back, and the elements past it: the same bytes on every
 * processor, or one of them computes otherwise. It needs no C library: the pack comes in memory, and `emit` takes what is written.
 *
 * A call more is one function and one row of `calls`; test.sh compares the rows with the header.
 */
/* SPDX-License-Identifier: LicenseRef-Wengeludo */
#include "lengths.h"

#define PAST 4 /* elements past what a call asks for */
#define FILLER 0xA5
#define COUNT(slice) (sizeof(slice) / sizeof *(slice))

void emit(const uint8_t *bytes, uint64_t count);
void drive(const uint8_t *pack, uint64_t length);

/* What is written is gathered, since a call of emit may be a call out of the machine. */
static uint8_t gathered[65536];
static uint64_t gathered_count;

static void flush(void)
{
    emit(gathered, gathered_count);
    gathered_count = 0;
}

static void byte(uint8_t value)
{
    if (gathered_count == sizeof gathered)
        flush();
    gathered[gathered_count++] = value;
}

static void number(uint64_t value) /* high byte first, on every processor */
{
    for (int shift = 56; shift >= 0; shift -= 8)
        byte((uint8_t)(value >> shift));
}

#define NUMBERS(slice) for (uint64_t i = 0; i < COUNT(slice); i++) number((uint64_t)(slice)[i])
#define BYTES(slice) for (uint64_t i = 0; i < COUNT(slice); i++) byte((slice)[i])
#define FILL(slice) for (uint64_t i = 0; i < COUNT(slice); i++) (slice)[i] = FILLER

static uint64_t seed = 42;

static uint32_t drawn(uint32_t below)
{
    seed = seed * 6364136223846793005u + 1442695040888963407u;
    return (uint32_t)(seed >> 33) % below;
}

/* The length that is said of a slice: once in sixteen one less than the least. */
static uint64_t said(uint64_t least, uint64_t there) { return drawn(16) ? there : least - 1; }

/* The file that is tried, and what the calls before hand to those behind. */
static const uint8_t *file;
static uint64_t file_length;
static uint32_t lasts[WENGELUDO_OFFICES];
static uint8_t sheet[WENGELUDO_SHEET_SIZE + PAST];
static uint64_t sheet_length;
static int64_t numbers[WENGELUDO_MAX_PLACES + PAST];
static uint64_t number_count;

static uint8_t balanced(const uint8_t *bytes, uint64_t length)
{
    uint64_t marked = FILLER;
    FILL(sheet);
    const uint8_t refusal = wengeludo_balance_plant(bytes, length, (uint8_t)drawn(9), lasts, COUNT(lasts), sheet,
                                                    said(WENGELUDO_SHEET_SIZE, COUNT(sheet)), &sheet_length, &marked);
    number(refusal), number(sheet_length), number(marked);
    BYTES(sheet);
    NUMBERS(lasts);
    return refusal;
}

static void version(void) { number(wengeludo_version()); }
static void balance_plant(void) { balanced(file, file_length); }

static void read_sheet(void)
{
    uint8_t kinds[WENGELUDO_MAX_STREAMS + PAST], kind = FILLER, office = FILLER, degrees = FILLER, verdict = FILLER;
    int64_t flows[WENGELUDO_MAX_STREAMS + PAST];
    uint64_t count = FILLER, cost = FILLER;
    uint32_t drawn_as = FILLER;
    FILL(kinds);
    FILL(flows);
    number(wengeludo_read_sheet(sheet, sheet_length ? sheet_length : COUNT(sheet), kinds, said(WENGELUDO_MAX_STREAMS, COUNT(kinds)), flows,
                                COUNT(flows), &count, &kind, &office, &drawn_as, &cost, &degrees, &verdict));
    number(count), number(kind), number(office), number(drawn_as), number(cost), number(degrees), number(verdict);
    BYTES(kinds);
    NUMBERS(flows);
}

static void place_numbers(void)
{
    FILL(numbers);
    number(wengeludo_place_numbers(file, file_length, numbers, said(WENGELUDO_MAX_PLACES, COUNT(numbers)), &number_count));
    number(number_count);
    NUMBERS(numbers);
}

static void check_sheet(void) /* as it is, with a number off by little, with a bit of the sheet turned */
{
    number(wengeludo_check_sheet(file, file_length, sheet, sheet_length, numbers, number_count));
    if (number_count)
        numbers[drawn((uint32_t)number_count)] += (int64_t)drawn(3) - 1;
    number(wengeludo_check_sheet(file, file_length, sheet, sheet_length, numbers, number_count));
    if (sheet_length)
        sheet[drawn((uint32_t)sheet_length)] ^= (uint8_t)(1 << drawn(8));
    number(wengeludo_check_sheet(file, file_length, sheet, sheet_length, numbers, number_count));
}

typedef uint8_t moving(const uint8_t *bytes, size_t length, uint8_t *out, size_t out_length, size_t *written);
static uint8_t moved[WENGELUDO_FILE_SIZE + PAST];
static uint64_t moved_length;

static uint8_t moved_by(uint8_t refusal)
{
    number(refusal), number(moved_length);
    BYTES(moved);
    return refusal;
}

#define MOVED(call) moved_by(call(file, file_length, moved, said(WENGELUDO_FILE_SIZE, COUNT(moved)), &moved_length))

static void to_ranged(void)
{
    FILL(moved);
    MOVED(wengeludo_to_ranged);
}

static void from_ranged(void)
{
    FILL(moved);
    MOVED(wengeludo_from_ranged);
}

static void plant_from_transmitter(void)
{
    FILL(moved);
    if (MOVED(wengeludo_plant_from_transmitter) == WENGELUDO_DONE)
        balanced(moved, moved_length);
}

static void layouts_of(void)
{
    uint16_t counts[WENGELUDO_SURVEY_SIZE + PAST];
    uint64_t count = FILLER;
    FILL(counts);
    number(wengeludo_layouts_of(file, file_length, counts, said(WENGELUDO_SURVEY_SIZE, COUNT(counts)), &count));
    number(count);
    NUMBERS(counts);
}

static void visits_of(const uint8_t *bytes, uint64_t length)
{
    uint8_t streams[WENGELUDO_MAX_STREAMS + PAST];
    uint64_t costs[WENGELUDO_MAX_STREAMS + PAST], count = FILLER;
    FILL(streams);
    FILL(costs);
    number(wengeludo_visits(bytes, length, streams, COUNT(streams), costs, said(WENGELUDO_MAX_STREAMS, COUNT(costs)), &count));
    number(count);
    BYTES(streams);
    NUMBERS(costs);
}

static void visits(void) { visits_of(file, file_length); }

/* How many streams of the file are unmetered, or go to the outside. */
static uint64_t streams_that(int go_out)
{
    uint64_t found = 0, at = 2;
    while (at + 2 < file_length && found < WENGELUDO_MAX_STREAMS) {
        const uint8_t kind = file[at];
        const uint64_t length = kind == 2 ? 9 : kind == 6 ? 17 : kind == 3 ? 3 : 0;
        if (length == 0)
            break;
        found += go_out ? file[at + 2] == 0 : kind == 3;
        at += length;
    }
    return found;
}

static void meters_to_buy(void)
{
    uint8_t streams[WENGELUDO_MAX_STREAMS + PAST];
    uint32_t prices[WENGELUDO_MAX_STREAMS], price = FILLER;
    uint64_t count = FILLER;
    FILL(streams);
    for (uint64_t i = 0; i < COUNT(prices); i++)
        prices[i] = drawn(1000) + (drawn(3) ? 1 : WENGELUDO_MAX_PRICE - 999);
    number(wengeludo_meters_to_buy(file, file_length, prices, streams_that(0), streams, COUNT(streams), &count, &price));
    number(count), number(price);
    BYTES(streams);
}

static void charges(void)
{
    uint8_t streams[WENGELUDO_MAX_STREAMS + PAST];
    int64_t cents[WENGELUDO_MAX_STREAMS + PAST], bill = FILLER;
    uint16_t rates[WENGELUDO_MAX_STREAMS];
    uint64_t count = FILLER;
    FILL(streams);
    FILL(cents);
    for (uint64_t i = 0; i < COUNT(rates); i++)
        rates[i] = (uint16_t)drawn(WENGELUDO_MAX_RATE + 1);
    number(wengeludo_charges(file, file_length, rates, streams_that(1), streams, COUNT(streams), cents, COUNT(cents), &count, &bill));
    number(count), number((uint64_t)bill);
    BYTES(streams);
    NUMBERS(cents);
}

/* Parts of a plant as they fall. */
static struct {
    uint8_t units, from[WENGELUDO_MAX_STREAMS], to[WENGELUDO_MAX_STREAMS], metered[WENGELUDO_MAX_STREAMS], ranged[WENGELUDO_MAX_STREAMS];
    uint16_t weight[WENGELUDO_MAX_STREAMS];
    int32_t reading[WENGELUDO_MAX_STREAMS], low[WENGELUDO_MAX_STREAMS], high[WENGELUDO_MAX_STREAMS];
    uint64_t count;
} parts;

static void draw_stream(uint64_t k)
{
    parts.from[k] = (uint8_t)drawn(parts.units + 1u);
    parts.to[k] = (uint8_t)((parts.from[k] + (drawn(200) ? 1 + drawn(parts.units) : 0)) % (parts.units + 1u));
    parts.metered[k] = (uint8_t)drawn(4);
    parts.ranged[k] = (uint8_t)drawn(2);
    parts.weight[k] = (uint16_t)(1 + drawn(WENGELUDO_MAX_WEIGHT));
    parts.reading[k] = (int32_t)drawn(2000) - 1000;
    parts.low[k] = -(int32_t)drawn(3000);
    parts.high[k] = (int32_t)drawn(3000);
}

static void write_plant(void) /* and what becomes of the file that is written */
{
    parts.units = (uint8_t)(1 + drawn(WENGELUDO_MAX_UNITS));
    parts.count = drawn(WENGELUDO_MAX_STREAMS + 1);
    for (uint64_t k = 0; k < WENGELUDO_MAX_STREAMS; k++)
        draw_stream(k);
    FILL(moved);
    const uint8_t refusal = wengeludo_write_plant(
        parts.units, parts.count, parts.from, COUNT(parts.from), parts.to, COUNT(parts.to), parts.metered, COUNT(parts.metered),
        parts.weight, COUNT(parts.weight), parts.reading, COUNT(parts.reading), parts.ranged, said(WENGELUDO_MAX_STREAMS, COUNT(parts.ranged)),
        parts.low, COUNT(parts.low), parts.high, COUNT(parts.high), moved, said(WENGELUDO_FILE_SIZE, COUNT(moved)), &moved_length);
    if (moved_by(refusal) != WENGELUDO_DONE || balanced(moved, moved_length) != WENGELUDO_DONE)
        return;
    number(wengeludo_place_numbers(moved, moved_length, numbers, COUNT(numbers), &number_count));
    NUMBERS(numbers);
    number(wengeludo_check_sheet(moved, moved_length, sheet, sheet_length, numbers, number_count));
    visits_of(moved, moved_length);
}

static void read_plant(void)
{
    uint8_t units = FILLER, from[WENGELUDO_MAX_STREAMS + PAST], to[COUNT(from)], metered[COUNT(from)], ranged[COUNT(from)];
    uint16_t weight[COUNT(from)];
    int32_t reading[COUNT(from)], low[COUNT(from)], high[COUNT(from)];
    uint64_t count = FILLER;
    FILL(from);
    FILL(to);
    FILL(metered);
    FILL(weight);
    FILL(reading);
    FILL(ranged);
    FILL(low);
    FILL(high);
    number(wengeludo_read_plant(file, file_length, &units, &count, from, COUNT(from), to, said(WENGELUDO_MAX_STREAMS, COUNT(to)), metered,
                                COUNT(metered), weight, COUNT(weight), reading, COUNT(reading), ranged, COUNT(ranged), low, COUNT(low), high,
                                said(WENGELUDO_MAX_STREAMS, COUNT(high))));
    number(units), number(count);
    BYTES(from);
    BYTES(to);
    BYTES(metered);
    NUMBERS(weight);
    NUMBERS(reading);
    BYTES(ranged);
    NUMBERS(low);
    NUMBERS(high);
}

/* A plant with wide numbers, and a flow. */
static struct {
    uint8_t units, from[WENGELUDO_MAX_STREAMS], to[WENGELUDO_MAX_STREAMS], metered[WENGELUDO_MAX_STREAMS], ranged[WENGELUDO_MAX_STREAMS];
    uint64_t weight[WENGELUDO_MAX_STREAMS], count;
    int64_t reading[WENGELUDO_MAX_STREAMS], low[WENGELUDO_MAX_STREAMS], high[WENGELUDO_MAX_STREAMS], flow[WENGELUDO_MAX_STREAMS];
    int64_t numbers[WENGELUDO_MAX_PLACES];
} wide;

static int64_t sized(uint32_t bits) /* within 2^(bits - 1) */
{
    const int64_t size = (int64_t)drawn(1u << 20) - (1 << 19);
    return size * ((int64_t)1 << drawn(bits - 19));
}

/* Every second stream brings back what the one before it took; the reading is one at which the numbers show the flow. */
static void draw_wide(uint64_t k)
{
    wide.from[k] = k % 2 ? wide.to[k - 1] : (uint8_t)drawn(wide.units + 1u);
    wide.to[k] = k % 2 ? wide.from[k - 1] : (uint8_t)((wide.from[k] + 1 + drawn(wide.units)) % (wide.units + 1u));
    const int64_t difference = wide.numbers[wide.to[k]] - wide.numbers[wide.from[k]];
    wide.metered[k] = (uint8_t)(difference || drawn(4));
    wide.weight[k] = 1 + ((uint64_t)drawn(1u << 20) << drawn(21));
    wide.flow[k] = k % 2 ? wide.flow[k - 1] : sized(40);
    const int64_t twice = 2 * (int64_t)wide.weight[k], sum = difference + (int64_t)wide.weight[k];
    wide.reading[k] = wide.flow[k] - (sum / twice - (sum % twice < 0));
    wide.ranged[k] = (uint8_t)drawn(3);
    wide.low[k] = wide.flow[k] - (int64_t)drawn(3);
    wide.high[k] = wide.flow[k] + (int64_t)drawn(3);
}

static void tell_wide(void)
{
    number(wengeludo_check_flow(wide.units, wide.count, wide.from, COUNT(wide.from), wide.to, COUNT(wide.to), wide.metered,
                                COUNT(wide.metered), wide.weight, COUNT(wide.weight), wide.reading, COUNT(wide.reading), wide.ranged,
                                COUNT(wide.ranged), wide.low, COUNT(wide.low), wide.high, COUNT(wide.high), wide.flow, COUNT(wide.flow),
                                wide.numbers, said(wide.units + 1u, COUNT(wide.numbers))));
}

static void check_flow(void) /* as it is, with a number, a flow or a weight off */
{
    const uint32_t bits = 20 + drawn(41);
    wide.units = (uint8_t)(1 + drawn(WENGELUDO_MAX_UNITS));
    wide.count = 2 * drawn(WENGELUDO_MAX_STREAMS / 2 + 1);
    for (uint64_t u = 0; u < COUNT(wide.numbers); u++)
        wide.numbers[u] = sized(bits);
    for (uint64_t k = 0; k < wide.count; k++)
        draw_wide(k);
    tell_wide();
    wide.numbers[drawn(wide.units + 1u)] += (int64_t)drawn(3) - 1;
    tell_wide();
    wide.flow[drawn(WENGELUDO_MAX_STREAMS)] += (int64_t)drawn(3) - 1;
    tell_wide();
    wide.weight[drawn(WENGELUDO_MAX_STREAMS)] <<= drawn(24);
    tell_wide();
}

static void (*const calls[])(void) = {
    version, balance_plant, read_sheet, place_numbers, check_sheet, to_ranged, from_ranged, plant_from_transmitter,
    layouts_of, visits, meters_to_buy, charges, write_plant, read_plant, check_flow,
};

/* The pack: each file behind its length, in four bytes, high byte first. */
void drive(const uint8_t *pack, uint64_t length)
{
    for (uint64_t at = 0; at + 4 <= length; at += 4 + file_length) {
        file_length = (uint64_t)pack[at] << 24 | (uint64_t)pack[at + 1] << 16 | (uint64_t)pack[at + 2] << 8 | pack[at + 3];
        file = pack + at + 4;
        for (uint64_t k = 0; k < COUNT(calls); k++) {
            byte((uint8_t)k);
            calls[k]();
        }
    }
    flush();
}
