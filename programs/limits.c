/* Every limit, kind and verdict of the header against the calls: taken at it, refused beyond it; and the critical values, by plants
 * whose cost is at each of them and just above it. Prints what differs. */
/* SPDX-License-Identifier: LicenseRef-Wengeludo */
#include <stdio.h>
#include <string.h>

#include "wengeludo_balance.h"

enum { MOST = WENGELUDO_MAX_STREAMS + 1, ROOM = 4 * WENGELUDO_FILE_SIZE };

static int failed, tried;

static void expect(const char *what, long long found, long long wanted)
{
    tried++;
    if (found != wanted) {
        printf("limits: %s: %lld, expected %lld\n", what, found, wanted);
        failed = 1;
    }
}

/* The parts of a plant; streams run from 0 to 1, and have neither meter nor range. */
struct parts {
    uint8_t from[MOST], to[MOST], metered[MOST], ranged[MOST];
    uint16_t weight[MOST];
    int32_t reading[MOST], low[MOST], high[MOST];
};

static struct parts plain(void)
{
    struct parts p;
    memset(&p, 0, sizeof p);
    memset(p.to, 1, sizeof p.to);
    return p;
}

/* One metered stream with a range. */
static struct parts one(uint16_t weight, int32_t reading, int32_t low, int32_t high)
{
    struct parts p = plain();
    p.metered[0] = p.ranged[0] = 1;
    p.weight[0] = weight;
    p.reading[0] = reading;
    p.low[0] = low;
    p.high[0] = high;
    return p;
}

/* All streams metered with ranges, every second one back to the outside. */
static struct parts full(void)
{
    struct parts p = plain();
    for (int k = 0; k < MOST; k++) {
        p.from[k] = (uint8_t)(k % 2);
        p.to[k] = (uint8_t)(1 - k % 2);
        p.metered[k] = p.ranged[k] = 1;
        p.weight[k] = 1;
        p.high[k] = 5;
    }
    return p;
}

static uint8_t write_to(uint8_t units, size_t count, struct parts p, uint8_t *file, size_t room, size_t *written)
{
    return wengeludo_write_plant(units, count, p.from, MOST, p.to, MOST, p.metered, MOST, p.weight, MOST, p.reading, MOST, p.ranged,
                                 MOST, p.low, MOST, p.high, MOST, file, room, written);
}

static uint8_t writes(uint8_t units, size_t count, struct parts p)
{
    uint8_t file[ROOM];
    size_t written;
    return write_to(units, count, p, file, sizeof file, &written);
}

static void plants(void)
{
    struct parts p = plain();
    expect("the most units", writes(WENGELUDO_MAX_UNITS, 1, p), 0);
    expect("a unit more", writes(WENGELUDO_MAX_UNITS + 1, 1, p), WENGELUDO_UNITS);
    p.to[0] = WENGELUDO_MAX_PLACES - 1;
    expect("the last place", writes(WENGELUDO_MAX_UNITS, 1, p), 0);
    p.to[0] = WENGELUDO_MAX_PLACES;
    expect("a place more", writes(WENGELUDO_MAX_UNITS, 1, p), WENGELUDO_PLACE);
    expect("the most streams", writes(1, WENGELUDO_MAX_STREAMS, plain()), 0);
    expect("a stream more", writes(1, WENGELUDO_MAX_STREAMS + 1, plain()), WENGELUDO_TOO_MANY_STREAMS);
    expect("the greatest weight", writes(1, 1, one(WENGELUDO_MAX_WEIGHT, 0, 0, 0)), 0);
    expect("a greater weight", writes(1, 1, one(WENGELUDO_MAX_WEIGHT + 1, 0, 0, 0)), WENGELUDO_WEIGHT);
    expect("the greatest reading", writes(1, 1, one(1, WENGELUDO_MAX_READING, 0, 0)), 0);
    expect("a greater reading", writes(1, 1, one(1, WENGELUDO_MAX_READING + 1, 0, 0)), WENGELUDO_READING);
    expect("the least reading", writes(1, 1, one(1, -WENGELUDO_MAX_READING, 0, 0)), 0);
    expect("a lesser reading", writes(1, 1, one(1, -WENGELUDO_MAX_READING - 1, 0, 0)), WENGELUDO_READING);
    expect("the widest range", writes(1, 1, one(1, 0, -WENGELUDO_MAX_RANGE, WENGELUDO_MAX_RANGE)), 0);
    expect("a greater high", writes(1, 1, one(1, 0, 0, WENGELUDO_MAX_RANGE + 1)), WENGELUDO_RANGE);
    expect("a lesser low", writes(1, 1, one(1, 0, -WENGELUDO_MAX_RANGE - 1, 0)), WENGELUDO_RANGE);
}

static void slices(void)
{
    uint8_t file[ROOM], out[ROOM], marks[ROOM];
    uint32_t lasts[WENGELUDO_OFFICES] = {0};
    size_t length = 0, written = 0;
    uint64_t marked;
    expect("the longest plant file", write_to(1, WENGELUDO_MAX_STREAMS, full(), file, WENGELUDO_FILE_SIZE, &length), 0);
    expect("its length", (long long)length, WENGELUDO_FILE_SIZE);
    expect("a file slice too short", write_to(1, 0, plain(), marks, WENGELUDO_FILE_SIZE - 1, &written), WENGELUDO_SLICE_TOO_SHORT);
    expect("the longest sheet", wengeludo_balance_plant(file, length, WENGELUDO_OFFICES - 1, lasts, WENGELUDO_OFFICES, out,
                                                        WENGELUDO_SHEET_SIZE, &written, &marked), 0);
    expect("its length", (long long)written, WENGELUDO_SHEET_SIZE);
    expect("a sheet slice too short", wengeludo_balance_plant(file, length, 0, lasts, WENGELUDO_OFFICES, out,
                                                              WENGELUDO_SHEET_SIZE - 1, &written, &marked), WENGELUDO_SLICE_TOO_SHORT);
    expect("an office more", wengeludo_balance_plant(file, length, WENGELUDO_OFFICES, lasts, WENGELUDO_OFFICES, out,
                                                     WENGELUDO_SHEET_SIZE, &written, &marked), WENGELUDO_NO_OFFICE);
    expect("an office's number less", wengeludo_balance_plant(file, length, 0, lasts, WENGELUDO_OFFICES - 1, out, WENGELUDO_SHEET_SIZE,
                                                              &written, &marked), WENGELUDO_SLICE_TOO_SHORT);
    file[length] = 0;
    expect("a byte after it", wengeludo_to_ranged(file, length + 1, out, WENGELUDO_FILE_SIZE, &written), WENGELUDO_AFTER_END);
}

static uint8_t reads(const uint8_t *file, size_t length, const size_t *room, uint8_t *units, size_t *count, struct parts *p)
{
    return wengeludo_read_plant(file, length, units, count, p->from, room[0], p->to, room[1], p->metered, room[2], p->weight, room[3],
                                p->reading, room[4], p->ranged, room[5], p->low, room[6], p->high, room[7]);
}

/* A part of all streams as it was written, and the element past them as it was. */
#define READ(part)                                                               \
    (memcmp(p.part, all.part, WENGELUDO_MAX_STREAMS * sizeof *p.part) == 0       \
     && memcmp(p.part + WENGELUDO_MAX_STREAMS, before.part, sizeof *p.part) == 0)

/* The longest plant file read into its parts, each slice as long as it must be, and each in turn one too short. */
static void parts_read(void)
{
    uint8_t file[ROOM], units = 9;
    size_t length, count = 9, room[8];
    struct parts all = full(), p, before;
    memset(&p, 0x55, sizeof p);
    memset(&before, 0x55, sizeof before);
    write_to(1, WENGELUDO_MAX_STREAMS, all, file, sizeof file, &length);
    for (int i = 0; i < 8; i++)
        room[i] = WENGELUDO_MAX_STREAMS;
    for (int i = 0; i < 8; i++) {
        room[i]--;
        expect("a slice of parts too short", reads(file, length, room, &units, &count, &p), WENGELUDO_SLICE_TOO_SHORT);
        expect("nothing is written", units == 0 && count == 0 && memcmp(&p, &before, sizeof p) == 0, 1);
        room[i]++;
    }
    expect("the most streams read", reads(file, length, room, &units, &count, &p), 0);
    expect("how many", units == 1 && count == WENGELUDO_MAX_STREAMS, 1);
    expect("their ends", READ(from) && READ(to), 1);
    expect("their meters", READ(metered) && READ(weight) && READ(reading), 1);
    expect("their ranges", READ(ranged) && READ(low) && READ(high), 1);
}

/* A transmitter file of so many records, each of a value; its length. */
static size_t transmitter(uint8_t *file, uint8_t records)
{
    static const uint8_t record[] = {0x21, 0, 1, 0x42, 0xC8, 0, 0, 0x40, 0x24, 0, 0, 0, 0, 0, 0};
    file[0] = 1;
    file[1] = 1;
    for (int k = 0; k < records; k++)
        memcpy(file + 2 + k * sizeof record, record, sizeof record);
    size_t at = 2 + records * sizeof record;
    file[at] = 4;
    file[at + 1] = records;
    return at + 2;
}

static void transmitters(void)
{
    uint8_t file[ROOM], out[WENGELUDO_FILE_SIZE];
    size_t written, length = transmitter(file, WENGELUDO_MAX_STREAMS);
    expect("the longest transmitter file", (long long)length, WENGELUDO_TRANSMITTER_SIZE);
    expect("it is taken", wengeludo_plant_from_transmitter(file, length, out, sizeof out, &written), 0);
    length = transmitter(file, WENGELUDO_MAX_STREAMS + 1);
    expect("a record more", wengeludo_plant_from_transmitter(file, length, out, sizeof out, &written), WENGELUDO_TOO_MANY_STREAMS);
}

static void lists(void)
{
    uint8_t file[ROOM], streams[WENGELUDO_MAX_STREAMS];
    size_t length, count;
    struct parts p = plain();
    uint32_t price = WENGELUDO_MAX_PRICE, paid;
    write_to(1, 1, p, file, sizeof file, &length);
    expect("the greatest price", wengeludo_meters_to_buy(file, length, &price, 1, streams, WENGELUDO_MAX_STREAMS, &count, &paid), 0);
    price++;
    expect("a greater price", wengeludo_meters_to_buy(file, length, &price, 1, streams, WENGELUDO_MAX_STREAMS, &count, &paid),
           WENGELUDO_PRICES);
    expect("a list of streams too short", wengeludo_meters_to_buy(file, length, &price, 1, streams, WENGELUDO_MAX_STREAMS - 1, &count,
                                                                  &paid), WENGELUDO_SLICE_TOO_SHORT);
    p.from[0] = 1;
    p.to[0] = 0;
    write_to(1, 1, p, file, sizeof file, &length);
    uint16_t rate = WENGELUDO_MAX_RATE;
    int64_t charges[WENGELUDO_MAX_STREAMS], bill;
    expect("the greatest rate", wengeludo_charges(file, length, &rate, 1, streams, WENGELUDO_MAX_STREAMS, charges,
                                                  WENGELUDO_MAX_STREAMS, &count, &bill), 0);
    rate++;
    expect("a greater rate", wengeludo_charges(file, length, &rate, 1, streams, WENGELUDO_MAX_STREAMS, charges, WENGELUDO_MAX_STREAMS,
                                               &count, &bill), WENGELUDO_RATES);
}

static void surveys(void)
{
    uint8_t file[ROOM];
    size_t length, count;
    uint16_t counts[WENGELUDO_SURVEY_SIZE];
    write_to(1, WENGELUDO_MAX_SURVEYED, plain(), file, sizeof file, &length);
    expect("the most streams surveyed", wengeludo_layouts_of(file, length, counts, WENGELUDO_SURVEY_SIZE, &count), 0);
    expect("their counts", (long long)count + 1, WENGELUDO_SURVEY_SIZE);
    expect("a slice too short for them", wengeludo_layouts_of(file, length, counts, WENGELUDO_SURVEY_SIZE - 1, &count),
           WENGELUDO_SLICE_TOO_SHORT);
    write_to(1, WENGELUDO_MAX_SURVEYED + 1, plain(), file, sizeof file, &length);
    expect("a stream more than is surveyed", wengeludo_layouts_of(file, length, counts, WENGELUDO_SURVEY_SIZE, &count),
           WENGELUDO_TOO_MANY_TO_SURVEY);
}

static void numbers(void)
{
    uint8_t file[ROOM], sheet[WENGELUDO_SHEET_SIZE];
    uint32_t lasts[WENGELUDO_OFFICES] = {0};
    int64_t places[WENGELUDO_MAX_PLACES];
    size_t length, written, count;
    uint64_t marked;
    write_to(WENGELUDO_MAX_UNITS, 0, plain(), file, sizeof file, &length);
    expect("the most places", wengeludo_place_numbers(file, length, places, WENGELUDO_MAX_PLACES, &count), 0);
    expect("their numbers", (long long)count, WENGELUDO_MAX_PLACES);
    expect("a slice too short for them", wengeludo_place_numbers(file, length, places, WENGELUDO_MAX_PLACES - 1, &count),
           WENGELUDO_SLICE_TOO_SHORT);
    wengeludo_balance_plant(file, length, 0, lasts, WENGELUDO_OFFICES, sheet, sizeof sheet, &written, &marked);
    places[1] = WENGELUDO_MAX_NUMBER;
    places[2] = -WENGELUDO_MAX_NUMBER;
    expect("the greatest numbers", wengeludo_check_sheet(file, length, sheet, written, places, WENGELUDO_MAX_PLACES), 0);
    places[1]++;
    expect("a greater number", wengeludo_check_sheet(file, length, sheet, written, places, WENGELUDO_MAX_PLACES), WENGELUDO_RULE_BROKEN);
    places[1] = 0;
    places[2]--;
    expect("a lesser number", wengeludo_check_sheet(file, length, sheet, written, places, WENGELUDO_MAX_PLACES), WENGELUDO_RULE_BROKEN);
}

/* The check of a flow: a stream to unit 1 and one back, the first with a range that is 0 alone. */
static uint8_t checks(uint64_t weight, int64_t reading, int64_t flow, int64_t number)
{
    static const uint8_t from[] = {0, 1}, to[] = {1, 0}, metered[] = {1, 0}, ranged[] = {1, 0};
    const uint64_t weights[] = {weight, 0};
    const int64_t readings[] = {reading, 0}, low[] = {flow, 0}, high[] = {flow, 0}, flows[] = {flow, flow}, numbers[] = {number, number};
    return wengeludo_check_flow(1, 2, from, 2, to, 2, metered, 2, weights, 2, readings, 2, ranged, 2, low, 2, high, 2, flows, 2, numbers, 2);
}

static void flows(void)
{
    expect("the greatest wide weight", checks(WENGELUDO_MAX_WIDE_WEIGHT, 0, 0, 0), 0);
    expect("a greater wide weight", checks(WENGELUDO_MAX_WIDE_WEIGHT + 1, 0, 0, 0), WENGELUDO_WEIGHT);
    expect("a weight of 0", checks(0, 0, 0, 0), WENGELUDO_WEIGHT);
    expect("the greatest wide reading", checks(1, WENGELUDO_MAX_WIDE_READING, 0, 0), 0);
    expect("a greater wide reading", checks(1, WENGELUDO_MAX_WIDE_READING + 1, 0, 0), WENGELUDO_READING);
    expect("the least wide reading", checks(1, -WENGELUDO_MAX_WIDE_READING, 0, 0), 0);
    expect("a lesser wide reading", checks(1, -WENGELUDO_MAX_WIDE_READING - 1, 0, 0), WENGELUDO_READING);
    expect("the greatest flow", checks(1, 0, WENGELUDO_MAX_WIDE_FLOW, 0), 0);
    expect("a greater flow", checks(1, 0, WENGELUDO_MAX_WIDE_FLOW + 1, 0), WENGELUDO_RULE_BROKEN);
    expect("the least flow", checks(1, 0, -WENGELUDO_MAX_WIDE_FLOW, 0), 0);
    expect("a lesser flow", checks(1, 0, -WENGELUDO_MAX_WIDE_FLOW - 1, 0), WENGELUDO_RULE_BROKEN);
    expect("the greatest wide number", checks(1, 0, 0, WENGELUDO_MAX_WIDE_NUMBER), 0);
    expect("a greater wide number", checks(1, 0, 0, WENGELUDO_MAX_WIDE_NUMBER + 1), WENGELUDO_RULE_BROKEN);
    expect("the least wide number", checks(1, 0, 0, -WENGELUDO_MAX_WIDE_NUMBER), 0);
    expect("a lesser wide number", checks(1, 0, 0, -WENGELUDO_MAX_WIDE_NUMBER - 1), WENGELUDO_RULE_BROKEN);
}

/* A ring of metered streams, all shut at 0, from the outside through so many units and back: as many degrees, and this cost. */
static void ring(uint8_t units, uint64_t cost, uint64_t *told, uint8_t *degrees, uint8_t *verdict, int64_t *weights)
{
    uint8_t file[ROOM], sheet[WENGELUDO_SHEET_SIZE], kinds[WENGELUDO_MAX_STREAMS], kind, office;
    uint32_t lasts[WENGELUDO_OFFICES] = {0}, number;
    int64_t flows[WENGELUDO_MAX_STREAMS];
    size_t length, written, count;
    uint64_t marked;
    struct parts p = full();
    int32_t root = 0;
    while ((uint64_t)(root + 1) * (uint64_t)(root + 1) <= cost)
        root++;
    for (int k = 0; k <= units; k++) {
        p.from[k] = (uint8_t)k;
        p.to[k] = (uint8_t)(k < units ? k + 1 : 0);
        p.reading[k] = k == 0 ? root : 0;
        p.high[k] = 0;
    }
    int32_t rest = (int32_t)(cost - (uint64_t)root * (uint64_t)root);
    p.reading[1] = rest != 0;
    p.weight[1] = (uint16_t)(rest != 0 ? rest : 1);
    *weights = units + p.weight[1];
    write_to(units, units + 1u, p, file, sizeof file, &length);
    expect("a ring's sheet", wengeludo_balance_plant(file, length, 0, lasts, WENGELUDO_OFFICES, sheet, sizeof sheet, &written, &marked), 0);
    wengeludo_read_sheet(sheet, written, kinds, WENGELUDO_MAX_STREAMS, flows, WENGELUDO_MAX_STREAMS, &count, &kind, &office, &number,
                         told, degrees, verdict);
    expect("the kind of its total", kind, WENGELUDO_TOTAL);
    expect("the kind of its first stream", kinds[0], WENGELUDO_ADJUSTED);
}

/* Chi-square at 95 per cent, in thousandths, for 1 to 32 degrees, as published. */
static void verdicts(void)
{
    static const uint16_t critical[WENGELUDO_MAX_UNITS] = {3841,  5991,  7815,  9488,  11070, 12592, 14067, 15507, 16919, 18307, 19675,
                                                           21026, 22362, 23685, 24996, 26296, 27587, 28869, 30144, 31410, 32671, 33924,
                                                           35172, 36415, 37652, 38885, 40113, 41337, 42557, 43773, 44985, 46194};
    for (uint8_t units = 1; units <= WENGELUDO_MAX_UNITS; units++) {
        uint64_t at = critical[units - 1], cost = 0;
        uint8_t degrees = 0, verdict = 9;
        int64_t weights = 0;
        ring(units, at, &cost, &degrees, &verdict, &weights);
        expect("the cost of a ring", (long long)cost, (long long)at);
        expect("its degrees", degrees, units);
        expect("the verdict at the critical value", verdict, WENGELUDO_PASS);
        ring(units, at + 1, &cost, &degrees, &verdict, &weights);
        expect("the verdict just above it", verdict, 4 > weights ? WENGELUDO_FAIL : WENGELUDO_CLOSE);
        ring(units, at + 2000, &cost, &degrees, &verdict, &weights);
        expect("the verdict far above it", verdict, WENGELUDO_FAIL);
    }
}

/* The kinds that a ring has not, and the verdict of no degrees: a meter alone, a pipe deduced, two that are withheld. */
static void kinds(void)
{
    static const uint8_t file[] = {1, 3, 2, 0, 1, 0, 1, 0, 0, 0, 7, 3, 1, 0, 3, 2, 3, 3, 2, 3, 4, 4};
    static const uint8_t plain_total[] = {0x1F, 0, 0, 0, 1, 0, 0, 0, 0, 0, 0, 0, 0, 0, 2};
    uint8_t sheet[WENGELUDO_SHEET_SIZE], found[WENGELUDO_MAX_STREAMS], kind, office, degrees, verdict;
    uint32_t lasts[WENGELUDO_OFFICES] = {0}, number;
    int64_t flows[WENGELUDO_MAX_STREAMS];
    size_t written, count;
    uint64_t marked, cost;
    expect("a plant of all kinds", wengeludo_balance_plant(file, sizeof file, 0, lasts, WENGELUDO_OFFICES, sheet, sizeof sheet, &written,
                                                           &marked), 0);
    wengeludo_read_sheet(sheet, written, found, WENGELUDO_MAX_STREAMS, flows, WENGELUDO_MAX_STREAMS, &count, &kind, &office, &number,
                         &cost, &degrees, &verdict);
    expect("a meter alone", found[0], WENGELUDO_AS_READ);
    expect("a pipe deduced", found[1], WENGELUDO_GIVEN);
    expect("a pipe withheld", found[2], WENGELUDO_WITHHELD);
    expect("the verdict of no degrees", verdict, WENGELUDO_NONE);
    expect("a total without an office", wengeludo_read_sheet(plain_total, sizeof plain_total, found, WENGELUDO_MAX_STREAMS, flows,
                                                             WENGELUDO_MAX_STREAMS, &count, &kind, &office, &number, &cost, &degrees,
                                                             &verdict), 0);
    expect("its kind", kind, WENGELUDO_PLAIN);
}

int main(void)
{
    plants();
    slices();
    parts_read();
    transmitters();
    lists();
    surveys();
    numbers();
    flows();
    verdicts();
    kinds();
    if (!failed)
        printf("limits: %d answers of the calls are those of the header\n", tried);
    return failed;
}
