/* Every slice of every call, of length 0 and NULL: the header promises that it is not looked at. Prints how many calls were tried;
 * exit status 1 where one returned another number than it should, or wrote where it should not.
 */
/* SPDX-License-Identifier: LicenseRef-Wengeludo */
#include <stdio.h>
#include <string.h>

#include "wengeludo_balance.h"

static int tried, failed;

/* What a call returned, and what it should. */
static void expect(const char *call, uint8_t number, uint8_t wanted)
{
    tried++;
    if (number == wanted)
        return;
    fprintf(stderr, "empty_slices: %s: %d (%s), expected %d\n", call, number, wengeludo_refusal_text(number), wanted);
    failed = 1;
}

/* A plant of one unit and no stream. */
static const uint8_t plant[] = {0x01, 0x01, 0x04, 0x00};

/* Its sheet: a total alone. */
static const uint8_t empty[] = {0x1F, 0, 0, 0, 1, 0, 0, 0, 0, 0, 0, 0, 0, 0, 2};

static void sheets(void)
{
    uint8_t sheet[WENGELUDO_SHEET_SIZE], kinds[WENGELUDO_MAX_STREAMS], kind, office, degrees, verdict;
    int64_t flows[WENGELUDO_MAX_STREAMS];
    uint32_t lasts[WENGELUDO_OFFICES] = {0}, number;
    size_t written, count;
    uint64_t marked, cost;
    expect("balance_plant, no file",
           wengeludo_balance_plant(NULL, 0, 0, lasts, WENGELUDO_OFFICES, sheet, sizeof sheet, &written, &marked),
           WENGELUDO_FILE_ENDS);
    expect("balance_plant, no sheet",
           wengeludo_balance_plant(plant, sizeof plant, 0, lasts, WENGELUDO_OFFICES, NULL, 0, &written, &marked),
           WENGELUDO_SLICE_TOO_SHORT);
    expect("balance_plant, no numbers",
           wengeludo_balance_plant(plant, sizeof plant, 0, NULL, 0, sheet, sizeof sheet, &written, &marked),
           WENGELUDO_SLICE_TOO_SHORT);
    expect("read_sheet, no sheet",
           wengeludo_read_sheet(NULL, 0, kinds, WENGELUDO_MAX_STREAMS, flows, WENGELUDO_MAX_STREAMS, &count, &kind, &office,
                                &number, &cost, &degrees, &verdict),
           WENGELUDO_SHEET_RECORD);
    expect("read_sheet, no kinds, no flows",
           wengeludo_read_sheet(NULL, 0, NULL, 0, NULL, 0, &count, &kind, &office, &number, &cost, &degrees, &verdict),
           WENGELUDO_SLICE_TOO_SHORT);
    if (lasts[0] != 0)
        failed = 1;
}

static void files(void)
{
    uint8_t file[WENGELUDO_FILE_SIZE];
    size_t written;
    expect("write_plant, no parts, no streams",
           wengeludo_write_plant(1, 0, NULL, 0, NULL, 0, NULL, 0, NULL, 0, NULL, 0, NULL, 0, NULL, 0, NULL, 0, file, sizeof file,
                                 &written),
           WENGELUDO_DONE);
    if (written != sizeof plant || memcmp(file, plant, sizeof plant) != 0)
        failed = 1;
    expect("write_plant, no parts, a stream",
           wengeludo_write_plant(1, 1, NULL, 0, NULL, 0, NULL, 0, NULL, 0, NULL, 0, NULL, 0, NULL, 0, NULL, 0, file, sizeof file,
                                 &written),
           WENGELUDO_SAME_PLACE);
    expect("write_plant, no file",
           wengeludo_write_plant(1, 0, NULL, 0, NULL, 0, NULL, 0, NULL, 0, NULL, 0, NULL, 0, NULL, 0, NULL, 0, NULL, 0, &written),
           WENGELUDO_SLICE_TOO_SHORT);
    uint8_t units, from[WENGELUDO_MAX_STREAMS], to[WENGELUDO_MAX_STREAMS], metered[WENGELUDO_MAX_STREAMS], ranged[WENGELUDO_MAX_STREAMS];
    uint16_t weight[WENGELUDO_MAX_STREAMS];
    int32_t reading[WENGELUDO_MAX_STREAMS], low[WENGELUDO_MAX_STREAMS], high[WENGELUDO_MAX_STREAMS];
    size_t count;
    const size_t most = WENGELUDO_MAX_STREAMS;
    expect("read_plant, no file",
           wengeludo_read_plant(NULL, 0, &units, &count, from, most, to, most, metered, most, weight, most, reading, most, ranged, most, low,
                                most, high, most),
           WENGELUDO_FILE_ENDS);
    expect("read_plant, no parts",
           wengeludo_read_plant(plant, sizeof plant, &units, &count, NULL, 0, NULL, 0, NULL, 0, NULL, 0, NULL, 0, NULL, 0, NULL, 0, NULL, 0),
           WENGELUDO_SLICE_TOO_SHORT);
    expect("plant_from_transmitter, no file", wengeludo_plant_from_transmitter(NULL, 0, file, sizeof file, &written),
           WENGELUDO_FILE_ENDS);
    expect("plant_from_transmitter, no plant", wengeludo_plant_from_transmitter(plant, sizeof plant, NULL, 0, &written),
           WENGELUDO_SLICE_TOO_SHORT);
    expect("to_ranged, no file", wengeludo_to_ranged(NULL, 0, file, sizeof file, &written), WENGELUDO_FILE_ENDS);
    expect("to_ranged, no out", wengeludo_to_ranged(plant, sizeof plant, NULL, 0, &written), WENGELUDO_SLICE_TOO_SHORT);
    expect("from_ranged, no file", wengeludo_from_ranged(NULL, 0, file, sizeof file, &written), WENGELUDO_FILE_ENDS);
    expect("from_ranged, no out", wengeludo_from_ranged(plant, sizeof plant, NULL, 0, &written), WENGELUDO_SLICE_TOO_SHORT);
}

static void others(void)
{
    uint8_t streams[WENGELUDO_MAX_STREAMS];
    uint16_t counts[WENGELUDO_SURVEY_SIZE];
    uint64_t costs[WENGELUDO_MAX_STREAMS];
    int64_t cents[WENGELUDO_MAX_STREAMS], numbers[WENGELUDO_MAX_UNITS + 1] = {0}, bill;
    size_t count;
    uint32_t price;
    expect("meters_to_buy, no file",
           wengeludo_meters_to_buy(NULL, 0, NULL, 0, streams, sizeof streams, &count, &price), WENGELUDO_FILE_ENDS);
    expect("meters_to_buy, no prices",
           wengeludo_meters_to_buy(plant, sizeof plant, NULL, 0, streams, sizeof streams, &count, &price), WENGELUDO_DONE);
    expect("meters_to_buy, no streams", wengeludo_meters_to_buy(plant, sizeof plant, NULL, 0, NULL, 0, &count, &price),
           WENGELUDO_SLICE_TOO_SHORT);
    expect("charges, no file",
           wengeludo_charges(NULL, 0, NULL, 0, streams, sizeof streams, cents, WENGELUDO_MAX_STREAMS, &count, &bill),
           WENGELUDO_FILE_ENDS);
    expect("charges, no rates",
           wengeludo_charges(plant, sizeof plant, NULL, 0, streams, sizeof streams, cents, WENGELUDO_MAX_STREAMS, &count, &bill),
           WENGELUDO_DONE);
    expect("charges, no streams, no charges",
           wengeludo_charges(plant, sizeof plant, NULL, 0, NULL, 0, NULL, 0, &count, &bill), WENGELUDO_SLICE_TOO_SHORT);
    expect("check_sheet, no plant", wengeludo_check_sheet(NULL, 0, empty, sizeof empty, numbers, 2), WENGELUDO_FILE_ENDS);
    expect("check_sheet, no sheet", wengeludo_check_sheet(plant, sizeof plant, NULL, 0, numbers, 2), WENGELUDO_SHEET_RECORD);
    expect("check_sheet, no numbers", wengeludo_check_sheet(plant, sizeof plant, empty, sizeof empty, NULL, 0),
           WENGELUDO_RULE_BROKEN);
    expect("check_sheet", wengeludo_check_sheet(plant, sizeof plant, empty, sizeof empty, numbers, 2), WENGELUDO_DONE);
    expect("check_flow, no streams",
           wengeludo_check_flow(1, 0, NULL, 0, NULL, 0, NULL, 0, NULL, 0, NULL, 0, NULL, 0, NULL, 0, NULL, 0, NULL, 0, numbers, 2),
           WENGELUDO_DONE);
    expect("check_flow, no numbers",
           wengeludo_check_flow(1, 0, NULL, 0, NULL, 0, NULL, 0, NULL, 0, NULL, 0, NULL, 0, NULL, 0, NULL, 0, NULL, 0, NULL, 0),
           WENGELUDO_SLICE_TOO_SHORT);
    expect("check_flow, a stream that is not there",
           wengeludo_check_flow(1, 1, NULL, 0, NULL, 0, NULL, 0, NULL, 0, NULL, 0, NULL, 0, NULL, 0, NULL, 0, NULL, 0, numbers, 2),
           WENGELUDO_SLICE_TOO_SHORT);
    expect("place_numbers, no file", wengeludo_place_numbers(NULL, 0, numbers, WENGELUDO_MAX_UNITS + 1, &count),
           WENGELUDO_FILE_ENDS);
    expect("place_numbers, no numbers", wengeludo_place_numbers(plant, sizeof plant, NULL, 0, &count), WENGELUDO_SLICE_TOO_SHORT);
    expect("layouts_of, no file", wengeludo_layouts_of(NULL, 0, counts, WENGELUDO_SURVEY_SIZE, &count), WENGELUDO_FILE_ENDS);
    expect("visits, no file", wengeludo_visits(NULL, 0, streams, sizeof streams, costs, WENGELUDO_MAX_STREAMS, &count),
           WENGELUDO_FILE_ENDS);
    expect("visits, no streams, no costs", wengeludo_visits(plant, sizeof plant, NULL, 0, NULL, 0, &count),
           WENGELUDO_SLICE_TOO_SHORT);
    expect("layouts_of, no counts", wengeludo_layouts_of(plant, sizeof plant, NULL, 0, &count), WENGELUDO_SLICE_TOO_SHORT);
}

int main(void)
{
    sheets();
    files();
    others();
    if (wengeludo_version() != WENGELUDO_VERSION) {
        fprintf(stderr, "empty_slices: the archive is version %u, the header %d\n", wengeludo_version(), WENGELUDO_VERSION);
        failed = 1;
    }
    if (failed)
        return 1;
    printf("empty_slices: %d calls with NULL and length 0 as promised; version %u\n", tried, wengeludo_version());
    return 0;
}
