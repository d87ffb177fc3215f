/* Meters worth a visit: the list, against the sheets of the plants with a meter less. */
/* SPDX-License-Identifier: LicenseRef-Wengeludo */
#include "target.h"

/* The cost on a sheet. */
static uint64_t cost_on(const uint8_t *sheet, size_t written) { return field(sheet + written - 10, 8); }

/* The sheet's cost of an accepted file with stream k, counted from 0, unmetered. */
static uint64_t cost_without(const uint8_t *file, size_t size, size_t k)
{
    static uint8_t less[WENGELUDO_FILE_SIZE], sheet[WENGELUDO_SHEET_SIZE];
    size_t at = 2, written;
    uint32_t lasts[WENGELUDO_OFFICES] = {0};
    uint64_t marked;
    for (size_t i = 0; i < k; i++)
        at += body(file[at]);
    size_t rest = at + body(file[at]);
    memcpy(less, file, at + 3);
    less[at] = 3;
    memcpy(less + at + 3, file + rest, size - rest);
    if (wengeludo_balance_plant(less, at + 3 + size - rest, 0, lasts, WENGELUDO_OFFICES, sheet, sizeof sheet, &written, &marked) != 0)
        fail("no sheet without a meter");
    return cost_on(sheet, written);
}

/* The list: each A stream of the sheet once, by cost, equals by number; no cost above the sheet's; few of them, or some, by the sheets
 * of the plants with that stream unmetered. */
static void list_fits(const uint8_t *file, size_t size, const uint8_t *sheet, size_t written, const uint8_t *streams,
                      const uint64_t *costs, size_t count)
{
    uint8_t adjusted[WENGELUDO_MAX_STREAMS] = {0};
    size_t letters = 0, listed_streams = 0, step = count > 12 ? 7 + size % 5 : 1;
    for (size_t at = 0; sheet[at] != WENGELUDO_TOTAL; at += sheet[at] == WENGELUDO_WITHHELD ? 1 : 9)
        letters += adjusted[listed_streams++] = sheet[at] == WENGELUDO_ADJUSTED;
    if (count != letters)
        fail("more or fewer than the A streams are listed");
    for (size_t i = 0; i < count; i++) {
        if (streams[i] < 1 || streams[i] > listed_streams || !adjusted[streams[i] - 1])
            fail("a number is listed that is no A stream, or twice");
        adjusted[streams[i] - 1] = 0;
        if (costs[i] > cost_on(sheet, written))
            fail("a cost above the sheet's");
        if (i > 0 && (costs[i] < costs[i - 1] || (costs[i] == costs[i - 1] && streams[i] < streams[i - 1])))
            fail("a list out of order");
    }
    for (size_t i = size % step; i < count; i += step)
        if (costs[i] != cost_without(file, size, streams[i] - 1u))
            fail("another cost than that of the sheet without the meter");
    if (count > 1 && costs[count - 2] == UINT64_MAX)
        seen(VISITS_AT_CAP);
    if (count > 1 && costs[0] < costs[count - 1] && costs[count - 1] == UINT64_MAX)
        seen(VISITS_TO_CAP);
    seen(OF_VISITS + (count > 95 ? 95 : count));
}

/* Meters worth a visit on any file: the number returned, the slices, and the list. */
void visit(const uint8_t *data, size_t size, uint8_t choice)
{
    const size_t most = WENGELUDO_MAX_STREAMS;
    size_t numbers = choice < 224 ? most + choice % 3 : choice < 240 ? most : (choice - 240u) * 6, count = SIZE_MAX;
    size_t words = choice < 224 ? most + choice % 5 : choice < 240 ? (choice - 224u) * 6 : most;
    uint8_t *file = lend_file(data, size), *streams = kinds_end - numbers, *sheet = again_end - WENGELUDO_SHEET_SIZE;
    uint64_t *costs = (uint64_t *)(void *)flows_end - words;
    struct outcome o = first_sheet(file, size);
    guard_bytes(streams, numbers, 0);
    guard_words((int64_t *)costs, words);
    uint8_t returned = wengeludo_visits(file, size, streams, numbers, costs, words, &count);
    if (returned != (numbers < most || words < most ? WENGELUDO_SLICE_TOO_SHORT : o.returned))
        fail("meters worth a visit: another number");
    if (returned != 0 ? count != 0 : count > most)
        fail("meters worth a visit: another count");
    if (!kept_bytes(streams, numbers, count, 0))
        fail("a number past the list changed");
    if (!kept_words((const int64_t *)costs, words, count))
        fail("a cost past the list changed");
    same_file(data, size);
    seen(OF_VISITED + returned);
    if (returned == 0)
        list_fits(file, size, sheet, o.written, streams, costs, count);
}
