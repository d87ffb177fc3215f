/* Meters to buy: prices by the choice of the input, and an answer that no other set has. */
/* SPDX-License-Identifier: LicenseRef-Wengeludo */
#include "target.h"

/* Whether stream j goes before stream i where streams are left unmetered: dearer, or as dear and of higher number. */
static int before(const uint32_t *price, size_t i, size_t j) { return price[j] > price[i] || (price[j] == price[i] && j > i); }

/* Whether kept streams, of those that go before stream i only these, join its ends; i past the count: whether any has a loop. */
static int joined(const struct parts *p, size_t count, const uint8_t *kept, const uint32_t *price, size_t i)
{
    uint8_t set[256];
    int loop = 0;
    for (int u = 0; u < 256; u++)
        set[u] = (uint8_t)u;
    for (size_t k = 0; k < count; k++) {
        if (!kept[k] || (i < count && !before(price, i, k)))
            continue;
        uint8_t one = set[p->from[k]], other = set[p->to[k]];
        loop |= one == other;
        for (int u = 0; u < 256; u++)
            set[u] = set[u] == one ? other : set[u];
    }
    return i < count ? set[p->from[i]] == set[p->to[i]] : loop;
}

/* The answer: unmetered streams in rising order; those left have no loop, and join the ends of each that is bought by streams that
 * go before it. No other set has both. */
static void purchase_fits(const struct parts *p, size_t count, const uint32_t *price, const uint8_t *streams, size_t bought,
                          uint32_t total)
{
    uint8_t kept[112];
    uint32_t sum = 0;
    for (size_t k = 0; k < count; k++)
        kept[k] = !p->metered[k];
    for (size_t b = 0; b < bought; b++) {
        if (streams[b] < 1 || streams[b] > count || !kept[streams[b] - 1] || (b > 0 && streams[b] <= streams[b - 1]))
            fail("a number that is not to be bought");
        kept[streams[b] - 1] = 0;
        sum += price[streams[b] - 1];
    }
    if (sum != total)
        fail("another total");
    if (joined(p, count, kept, price, count))
        fail("a loop is left");
    for (size_t b = 0; b < bought; b++)
        if (!joined(p, count, kept, price, streams[b] - 1u))
            fail("a stream is bought that closes no loop");
}

/* Prices of an input: by stream, and those that are handed over, one for each unmetered stream; one too many, or one that is not
 * allowed, where the choice says so. Whether they are to be refused. */
static int prices_of(const struct parts *p, size_t count, uint8_t choice, uint32_t *price, uint32_t *prices, size_t *listed_prices)
{
    uint32_t top = choice % 4 == 0 ? 1000000 : 1u + choice % 4;
    for (size_t k = 0; k < count; k++) {
        price[k] = 1 + (uint32_t)((k * 2654435761u + choice * 40503u) >> 3) % top;
        if (!p->metered[k])
            prices[(*listed_prices)++] = price[k];
    }
    if (choice % 16 == 9)
        prices[(*listed_prices)++] = 1;
    else if (choice % 16 == 10 && *listed_prices > 0)
        prices[*listed_prices - 1] = choice % 32 == 10 ? 0 : 1000001;
    else
        return 0;
    return 1;
}

/* Meters to buy on any file: the number returned, the slice, and the answer. */
void buy(const uint8_t *data, size_t size, uint8_t choice)
{
    size_t length = choice < 240 ? 96 + choice % 3 : choice - 240u, listed_prices = 0, bought = SIZE_MAX;
    uint8_t *file = lend_file(data, size), *out = out_end - length;
    uint32_t price[112], prices[113], total = UINT32_MAX;
    struct parts p;
    uint8_t fault = first_sheet(file, size).returned;
    int taken = fault == 0 || fault == WENGELUDO_NO_FLOW;
    size_t count = taken ? listed(file, &p) : 0;
    int unfair = prices_of(&p, count, choice, price, prices, &listed_prices);
    if (taken)
        fault = unfair ? WENGELUDO_PRICES : 0;
    guard_bytes(out, length, 0);
    uint8_t returned = wengeludo_meters_to_buy(file, size, prices, listed_prices, out, length, &bought, &total);
    if (returned != (length < WENGELUDO_MAX_STREAMS ? 1 : fault))
        fail("meters to buy: another number");
    if (returned != 0 && (bought != 0 || total != 0))
        fail("a refusal buys");
    if (!kept_bytes(out, length, bought, 0))
        fail("meters to buy change what is not theirs");
    same_file(data, size);
    seen(OF_BOUGHT + returned);
    if (returned == 0)
        purchase_fits(&p, count, price, out, bought, total);
}
