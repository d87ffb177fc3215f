/* SPDX-License-Identifier: LicenseRef-Wengeludo */
#include "rows.h"

#include <string.h>

#include "wengeludo_balance.h"

#define STREAMS WENGELUDO_MAX_STREAMS

/* A plant file, and a sheet by its parts. */
typedef struct {
    uint8_t bytes[WENGELUDO_FILE_SIZE];
    size_t length;
} plant_file;

typedef struct {
    uint8_t bytes[WENGELUDO_SHEET_SIZE];
    size_t length;
    uint8_t kinds[STREAMS];
    int64_t flows[STREAMS];
    uint64_t cost;
    uint8_t degrees;
    uint8_t verdict;
} drawn_sheet;

/* What the plant writer takes of the meters. */
typedef struct {
    uint8_t metered[STREAMS];
    uint16_t weight[STREAMS];
    int32_t reading[STREAMS];
} meters;

static const uint8_t no_range[STREAMS];
static const int32_t no_end[STREAMS];

static uint8_t *put32(uint8_t *at, uint32_t bits)
{
    at[0] = (uint8_t)(bits >> 24);
    at[1] = (uint8_t)(bits >> 16);
    at[2] = (uint8_t)(bits >> 8);
    at[3] = (uint8_t)bits;
    return at + 4;
}

static uint32_t get32(const uint8_t *at)
{
    return (uint32_t)at[0] << 24 | (uint32_t)at[1] << 16 | (uint32_t)at[2] << 8 | at[3];
}

/* The transmitter file of a row. */
static size_t signals(const rows_plant *plant, const rows_in *in, size_t row, uint8_t *file)
{
    const float *values = in->values + row * plant->streams;
    const double *deviations = in->deviations + row * in->step;
    const uint8_t *status = in->status + row * plant->streams;
    uint8_t *at = file;
    *at++ = 0x01;
    *at++ = plant->units;
    for (size_t k = 0; k < plant->streams; k++) {
        uint32_t value;
        uint64_t deviation;
        *at++ = status[k];
        *at++ = plant->from[k];
        *at++ = plant->to[k];
        if (status[k] == WENGELUDO_FAULT)
            continue;
        memcpy(&value, values + k, sizeof value);
        memcpy(&deviation, deviations + k, sizeof deviation);
        at = put32(at, value);
        at = put32(at, (uint32_t)(deviation >> 32));
        at = put32(at, (uint32_t)deviation);
    }
    *at++ = 0x04;
    *at++ = (uint8_t)plant->streams;
    return (size_t)(at - file);
}

/* The meters in a plant file that a call wrote. */
static void read_meters(const plant_file *file, size_t streams, meters *found)
{
    const uint8_t *at = file->bytes + 2;
    for (size_t k = 0; k < streams; k++) {
        found->metered[k] = *at != 0x03;
        if (found->metered[k]) {
            found->weight[k] = (uint16_t)(at[3] << 8 | at[4]);
            found->reading[k] = (int32_t)get32(at + 5);
        }
        at += *at == 0x03 ? 3 : *at == 0x02 ? 9 : 17;
    }
}

static uint8_t write(const rows_plant *plant, const meters *by, plant_file *file)
{
    const size_t n = plant->streams;
    const uint8_t *ranged = plant->ranged ? plant->ranged : no_range;
    const int32_t *low = plant->ranged ? plant->low : no_end, *high = plant->ranged ? plant->high : no_end;
    return wengeludo_write_plant(plant->units, n, plant->from, n, plant->to, n, by->metered, n, by->weight, n, by->reading, n, ranged, n,
                                 low, n, high, n, file->bytes, sizeof file->bytes, &file->length);
}

/* The plant file of a row: the translator's, written anew with the ranges, which a transmitter file has not. */
static uint8_t translate(const rows_plant *plant, const rows_in *in, size_t row, plant_file *file)
{
    uint8_t sent[WENGELUDO_TRANSMITTER_SIZE];
    meters found;
    const size_t length = signals(plant, in, row, sent);
    const uint8_t refusal = wengeludo_plant_from_transmitter(sent, length, file->bytes, sizeof file->bytes, &file->length);
    if (refusal || !plant->ranged)
        return refusal;
    read_meters(file, plant->streams, &found);
    return write(plant, &found, file);
}

static uint8_t draw(const plant_file *file, drawn_sheet *sheet)
{
    uint32_t lasts[WENGELUDO_OFFICES] = {0}, number;
    uint64_t marked;
    size_t count;
    uint8_t kind, office;
    const uint8_t refusal = wengeludo_balance_plant(file->bytes, file->length, 0, lasts, WENGELUDO_OFFICES, sheet->bytes,
                                                    sizeof sheet->bytes, &sheet->length, &marked);
    if (refusal)
        return refusal;
    return wengeludo_read_sheet(sheet->bytes, sheet->length, sheet->kinds, STREAMS, sheet->flows, STREAMS, &count, &kind, &office, &number,
                                &sheet->cost, &sheet->degrees, &sheet->verdict);
}

/* Takes out the meter without which the sheet costs least, and so on until it no longer fails. */
static uint8_t eliminate(const rows_plant *plant, const plant_file *file, const rows_out *out, size_t row)
{
    uint8_t streams[STREAMS], verdict = WENGELUDO_FAIL;
    uint64_t costs[STREAMS];
    size_t count, at = row * out->most;
    plant_file one = *file;
    drawn_sheet sheet;
    meters left;
    read_meters(file, plant->streams, &left);
    for (size_t k = 0; k < out->most && verdict == WENGELUDO_FAIL; k++) {
        if (wengeludo_visits(one.bytes, one.length, streams, STREAMS, costs, STREAMS, &count) || !count)
            break;
        left.metered[streams[0] - 1] = 0;
        if (write(plant, &left, &one) || draw(&one, &sheet))
            break;
        verdict = sheet.verdict;
        out->dropped[at + k] = streams[0];
        out->dropped_flow[at + k] = sheet.flows[streams[0] - 1];
        out->dropped_cost[at + k] = sheet.cost;
    }
    return verdict;
}

static void charge(const rows_plant *plant, const plant_file *file, const rows_out *out, size_t row)
{
    uint8_t streams[STREAMS];
    int64_t charges[STREAMS];
    size_t count;
    out->unbilled[row] = wengeludo_charges(file->bytes, file->length, plant->rates, plant->charged, streams, STREAMS, charges, STREAMS,
                                           &count, out->bill + row);
    memcpy(out->cents + row * plant->charged, charges, count * sizeof *charges);
}

static void check(const plant_file *file, const drawn_sheet *sheet, const rows_out *out, size_t row)
{
    int64_t *numbers = out->numbers + row * WENGELUDO_MAX_PLACES;
    size_t count;
    const uint8_t refusal = wengeludo_place_numbers(file->bytes, file->length, numbers, WENGELUDO_MAX_PLACES, &count);
    out->checked[row] =
        refusal ? refusal : wengeludo_check_sheet(file->bytes, file->length, sheet->bytes, sheet->length, numbers, count);
}

/* A row that is refused has no sheet. */
static void clear_sheet(const rows_plant *plant, const rows_out *out, size_t row)
{
    memset(out->flows + row * plant->streams, 0, plant->streams * sizeof *out->flows);
    memset(out->kinds + row * plant->streams, 0, plant->streams);
    out->cost[row] = 0;
    out->degrees[row] = out->verdict[row] = 0;
}

/* What beside the sheet is asked for, before it is known. */
static void clear_rest(const rows_plant *plant, const rows_out *out, size_t row)
{
    if (out->most) {
        memset(out->dropped + row * out->most, 0, out->most);
        memset(out->dropped_flow + row * out->most, 0, out->most * sizeof *out->dropped_flow);
        memset(out->dropped_cost + row * out->most, 0, out->most * sizeof *out->dropped_cost);
        out->cleared[row] = 0;
    }
    if (out->cents) {
        memset(out->cents + row * plant->charged, 0, plant->charged * sizeof *out->cents);
        out->bill[row] = out->unbilled[row] = 0;
    }
    if (out->numbers) {
        memset(out->numbers + row * WENGELUDO_MAX_PLACES, 0, WENGELUDO_MAX_PLACES * sizeof *out->numbers);
        out->checked[row] = 0;
    }
}

static void keep(const rows_plant *plant, const drawn_sheet *sheet, const rows_out *out, size_t row)
{
    memcpy(out->flows + row * plant->streams, sheet->flows, plant->streams * sizeof *out->flows);
    memcpy(out->kinds + row * plant->streams, sheet->kinds, plant->streams);
    out->cost[row] = sheet->cost;
    out->degrees[row] = sheet->degrees;
    out->verdict[row] = sheet->verdict;
}

static uint8_t balance_row(const rows_plant *plant, const rows_in *in, const rows_out *out, size_t row)
{
    plant_file file;
    drawn_sheet sheet;
    uint8_t refusal = plant->streams > STREAMS ? WENGELUDO_TOO_MANY_STREAMS : 0; /* the files here have room for 96 */
    clear_rest(plant, out, row);
    if (!refusal)
        refusal = translate(plant, in, row, &file);
    if (!refusal)
        refusal = draw(&file, &sheet);
    if (refusal) {
        clear_sheet(plant, out, row);
        return refusal;
    }
    keep(plant, &sheet, out, row);
    if (out->most)
        out->cleared[row] = sheet.verdict == WENGELUDO_FAIL ? eliminate(plant, &file, out, row) : sheet.verdict;
    if (out->cents)
        charge(plant, &file, out, row);
    if (out->numbers)
        check(&file, &sheet, out, row);
    return 0;
}

size_t rows_balance(const rows_plant *plant, const rows_in *in, const rows_out *out, size_t first, size_t last)
{
    size_t refused = 0;
    for (size_t row = first; row < last; row++) {
        out->refusal[row] = balance_row(plant, in, out, row);
        refused += out->refusal[row] != 0;
    }
    return refused;
}
