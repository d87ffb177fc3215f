/* Steam charges: shares in 128 bits, the missing cents handed out one after the other. */
/* SPDX-License-Identifier: LicenseRef-Wengeludo */
#include "target.h"

/* Ten-thousandths rounded toward minus infinity, and what remains. */
static int rest_of(__int128 share) { return (int)((share % 10000 + 10000) % 10000); }
static int64_t cents_of(__int128 share) { return (int64_t)((share - rest_of(share)) / 10000); }

/* The charges of shares, the missing cents handed out one after the other; returns the bill. */
static int64_t apportioned(const __int128 *shares, size_t count, int64_t *cents)
{
    uint8_t given[WENGELUDO_MAX_STREAMS] = {0};
    __int128 sum = 0;
    int64_t rounded = 0;
    for (size_t k = 0; k < count; k++) {
        sum += shares[k];
        rounded += cents[k] = cents_of(shares[k]);
    }
    seen(OF_MISSING + (size_t)(cents_of(sum) - rounded));
    for (; rounded < cents_of(sum); rounded++) {
        size_t first = count;
        for (size_t k = 0; k < count; k++)
            if (!given[k] && (first == count || rest_of(shares[k]) > rest_of(shares[first])))
                first = k;
        given[first] = 1;
        cents[first]++;
    }
    return rounded;
}

/* The streams to the outside: their numbers, and their shares by the flows on the sheet; 25 where one is blank. */
static uint8_t owed(const struct parts *p, size_t count, const uint8_t *sheet, const uint16_t *rates, uint8_t *numbers, __int128 *shares)
{
    uint8_t fault = 0;
    for (size_t k = 0, j = 0, at = 0; k < count; k++) {
        int blank = sheet[at] == WENGELUDO_WITHHELD;
        if (p->to[k] == 0) {
            numbers[j] = (uint8_t)(k + 1);
            shares[j] = blank ? 0 : (__int128)(int64_t)field(sheet + at + 1, 8) * rates[j];
            fault = blank ? WENGELUDO_CHARGE_WITHHELD : fault;
            j++;
        }
        at += blank ? 1 : 9;
    }
    return fault;
}

/* Rates of an input, for so many streams to the outside: how many are handed over, and whether they are to be refused. */
static size_t rates_of(size_t charged, uint8_t choice, uint16_t *rates, int *unfit)
{
    for (size_t k = 0; k <= charged; k++)
        rates[k] = choice % 4 == 0 ? 5000 : choice % 4 == 1 ? (uint16_t)(3333 + k % 2) : (uint16_t)((k * 40503u + choice * 9973u) % 10001);
    size_t listed_rates = choice % 16 == 9 ? charged + 1 : choice % 16 == 10 && charged > 0 ? charged - 1 : charged;
    int over = choice % 16 == 11 && charged > 0;
    if (over)
        rates[charged - 1] = choice % 32 == 11 ? 10001 : UINT16_MAX;
    *unfit = over || listed_rates != charged;
    return listed_rates;
}

/* What is due of a file that has a sheet: the numbers and the shares of the streams to the outside. */
struct due { uint8_t number, streams[WENGELUDO_MAX_STREAMS]; __int128 shares[WENGELUDO_MAX_STREAMS]; size_t charged, listed_rates; };

static void due_of(const uint8_t *file, uint8_t number, uint8_t choice, uint16_t *rates, struct due *due)
{
    struct parts p;
    size_t count = number == 0 ? listed(file, &p) : 0;
    int unfit;
    *due = (struct due){.number = number};
    for (size_t k = 0; k < count; k++)
        due->charged += p.to[k] == 0;
    due->listed_rates = rates_of(due->charged, choice, rates, &unfit);
    if (number == 0)
        due->number = unfit ? WENGELUDO_RATES : owed(&p, count, again_end - WENGELUDO_SHEET_SIZE, rates, due->streams, due->shares);
}

/* Steam charges on any file: the number returned, the slices, the charges and the bill. */
void charge(const uint8_t *data, size_t size, uint8_t choice)
{
    const size_t most = WENGELUDO_MAX_STREAMS;
    size_t room = choice < 224 ? most + choice % 3 : choice < 240 ? most : (choice - 240u) * 6, count = SIZE_MAX;
    size_t words = choice < 224 ? most + choice % 5 : choice < 240 ? (choice - 224u) * 6 : most;
    uint8_t *file = lend_file(data, size), *streams = kinds_end - room;
    int64_t *cents = (int64_t *)(void *)flows_end - words, due_cents[WENGELUDO_MAX_STREAMS], bill = 77;
    uint16_t rates[WENGELUDO_MAX_STREAMS + 1];
    struct due due;
    due_of(file, first_sheet(file, size).returned, choice, rates, &due);
    if (room < most || words < most)
        due.number = WENGELUDO_SLICE_TOO_SHORT;
    guard_bytes(streams, room, 0);
    guard_words(cents, words);
    uint8_t returned = wengeludo_charges(file, size, rates, due.listed_rates, streams, room, cents, words, &count, &bill);
    if (returned != due.number)
        fail("steam charges: another number");
    if (count != (returned == 0 ? due.charged : 0)
        || bill != (returned == 0 ? apportioned(due.shares, due.charged, due_cents) : 0))
        fail("steam charges: another count or bill");
    if (memcmp(streams, due.streams, count) != 0 || !kept_bytes(streams, room, count, 0))
        fail("steam charges: another number of a stream");
    if (memcmp(cents, due_cents, count * sizeof *cents) != 0 || !kept_words(cents, words, count))
        fail("steam charges: another charge");
    same_file(data, size);
    seen(OF_CHARGED + returned);
}
