/* Sheets: the sheet call, the sheet reader, and what a sheet or the marked places must show. */
/* SPDX-License-Identifier: LicenseRef-Wengeludo */
#include "target.h"

/* The refusal of the call itself, as the header states it; 0 where it has none. */
static uint8_t call_fault(struct caller c, size_t length)
{
    if (c.lent < WENGELUDO_OFFICES || length < WENGELUDO_SHEET_SIZE)
        return WENGELUDO_SLICE_TOO_SHORT;
    if (c.office >= WENGELUDO_OFFICES)
        return WENGELUDO_NO_OFFICE;
    return c.last == UINT32_MAX ? WENGELUDO_NO_SHEET_NUMBER : WENGELUDO_DONE;
}

int of_the_call(uint8_t number)
{
    return number == WENGELUDO_SLICE_TOO_SHORT || number == WENGELUDO_NO_SHEET_NUMBER || number == WENGELUDO_NO_OFFICE;
}

/* The last number of office k before the call: of every other office none is left, or some. */
static uint32_t last_before(struct caller c, size_t k, int round)
{
    return k == c.office ? c.last : round ? UINT32_MAX : (uint32_t)(1000 * k);
}

/* What a call returned, counted and marked fits its fault, and the sheet shows its office and number. */
static void outcome_fits(struct outcome o, struct caller c, uint8_t fault, const uint8_t *slice)
{
    int of_the_file = o.returned == 0 || (o.returned >= 3 && o.returned <= 12) || o.returned == WENGELUDO_RANGE
                      || o.returned == WENGELUDO_NO_FLOW;
    if (fault != 0 ? o.returned != fault : !of_the_file)
        fail("a number that is no refusal, or another one");
    if (o.returned != WENGELUDO_NO_FLOW && o.marked != 0)
        fail("a call that marks places");
    if (o.returned != 0 && o.written != 0)
        fail("a refusal counts");
    if (o.returned == 0 && (o.written < 16 || o.written > WENGELUDO_SHEET_SIZE || slice[o.written - 16] != WENGELUDO_TOTAL
                            || slice[o.written - 15] != c.office || field(slice + o.written - 14, 4) != (uint64_t)c.last + 1))
        fail("a sheet with a wrong count, office or number");
}

struct outcome sheet_call(const uint8_t *file, size_t size, struct caller c, size_t length, uint8_t *end, int round)
{
    uint8_t *slice = end - length;
    guard_bytes(slice, length, round);
    uint32_t *lasts = (uint32_t *)(void *)lasts_end - c.lent;
    for (size_t k = 0; k < c.lent; k++)
        lasts[k] = last_before(c, k, round);
    memset(lasts - GUARD, 0x3C, GUARD * sizeof *lasts);
    struct outcome o = {.written = round ? 12345 : SIZE_MAX, .marked = round ? 0 : UINT64_MAX};
    o.returned = wengeludo_balance_plant(file, size, c.office, lasts, c.lent, slice, length, &o.written, &o.marked);
    outcome_fits(o, c, call_fault(c, length), slice);
    for (size_t k = 0; k < c.lent; k++)
        if (lasts[k] != last_before(c, k, round) + (o.returned == 0 && k == c.office))
            fail("a wrong last number");
    for (size_t i = 1; i <= GUARD; i++)
        if (lasts[-(ptrdiff_t)i] != 0x3C3C3C3C)
            fail("a number before the last numbers changed");
    if (!kept_bytes(slice, length, o.written, round))
        fail("a byte beside the sheet changed");
    return o;
}

struct outcome first_sheet(const uint8_t *file, size_t size)
{
    const struct caller first = {.office = 0, .last = 0, .lent = WENGELUDO_OFFICES};
    return sheet_call(file, size, first, WENGELUDO_SHEET_SIZE, again_end, 0);
}

uint8_t sheet_fault(const uint8_t *sheet, size_t size, size_t room)
{
    size_t at = 0, streams = 0;
    if (room < WENGELUDO_MAX_STREAMS)
        return 1;
    while (at < size && sheet[at] != WENGELUDO_TOTAL && sheet[at] != WENGELUDO_PLAIN) {
        if (sheet[at] < WENGELUDO_ADJUSTED || sheet[at] > WENGELUDO_WITHHELD || streams++ == WENGELUDO_MAX_STREAMS)
            return 13;
        at += sheet[at] == WENGELUDO_WITHHELD ? 1 : 9;
    }
    size_t end = at + (at < size && sheet[at] == WENGELUDO_TOTAL ? 16 : 15);
    if (end > size)
        return 13;
    uint8_t degrees = sheet[end - 2], verdict = sheet[end - 1];
    if (sheet[at] == WENGELUDO_TOTAL && sheet[at + 1] >= WENGELUDO_OFFICES)
        return 14;
    if (field(sheet + end - 14, 4) == 0 || degrees > 32 || (degrees == 0 ? verdict != 2 : verdict == 2 || verdict > 3))
        return 14;
    return end == size ? 0 : 15;
}

/* What the sheet reader hands over. */
struct kept {
    uint8_t *kinds, kind, office, degrees, verdict;
    int64_t *flows;
    size_t count;
    uint32_t number;
    uint64_t cost;
};

/* The parts of a sheet that is read, written again, are the sheet. */
static void same_sheet(const struct kept *k, const uint8_t *sheet, size_t size)
{
    uint8_t again[WENGELUDO_SHEET_SIZE];
    size_t length = 0;
    for (size_t i = 0; i < k->count; i++) {
        again[length++] = k->kinds[i];
        if (k->kinds[i] != WENGELUDO_WITHHELD)
            length = put(again, length, 8, (uint64_t)k->flows[i]);
        else if (k->flows[i] != 0)
            fail("a blank with a flow");
    }
    again[length++] = k->kind;
    if (k->kind == WENGELUDO_TOTAL)
        again[length++] = k->office;
    else if (k->office != 0)
        fail("a plain total with an office");
    length = put(again, length, 4, k->number);
    length = put(again, length, 8, k->cost);
    again[length++] = k->degrees;
    again[length++] = k->verdict;
    if (length != size || memcmp(again, sheet, size) != 0)
        fail("the sheet written again differs");
}

/* A sheet read back in, `room` elements being lent: the number returned, what stays as it was, and that the parts, written
 * again, are the sheet. */
void read_back(const uint8_t *sheet, size_t size, size_t room)
{
    struct kept k = {.kinds = kinds_end - room, .flows = (int64_t *)(void *)flows_end - room, .count = SIZE_MAX, .kind = 1, .office = 1,
                     .number = 1, .cost = 1, .degrees = 1, .verdict = 1};
    guard_bytes(k.kinds, room, 0);
    guard_words(k.flows, room);
    uint8_t returned = wengeludo_read_sheet(sheet, size, k.kinds, room, k.flows, room, &k.count, &k.kind, &k.office, &k.number, &k.cost,
                                            &k.degrees, &k.verdict);
    if (returned != sheet_fault(sheet, size, room))
        fail("the sheet reader returns another number");
    if (returned != 0
        && (k.count != 0 || k.kind != 0 || k.office != 0 || k.number != 0 || k.cost != 0 || k.degrees != 0 || k.verdict != 0))
        fail("a refused sheet hands something over");
    if (k.count > WENGELUDO_MAX_STREAMS)
        fail("more streams than there may be");
    if (!kept_bytes(k.kinds, room, k.count, 0) || !kept_words(k.flows, room, k.count))
        fail("an element beside the streams changed");
    if (returned == 0)
        same_sheet(&k, sheet, size);
}

/* The value in range nearest to the reading. */
static int64_t nearest(const struct parts *p, size_t k)
{
    if (p->ranged[k] && p->reading[k] < p->low[k])
        return p->low[k];
    return p->ranged[k] && p->reading[k] > p->high[k] ? p->high[k] : p->reading[k];
}

/* The verdict by degrees, cost and the summed weights of the A streams. */
static uint8_t verdict_of(uint8_t degrees, unsigned __int128 cost, uint32_t weights)
{
    static const uint16_t critical[] = {3841,  5991,  7815,  9488,  11070, 12592, 14067, 15507, 16919, 18307, 19675,
                                        21026, 22362, 23685, 24996, 26296, 27587, 28869, 30144, 31410, 32671, 33924,
                                        35172, 36415, 37652, 38885, 40113, 41337, 42557, 43773, 44985, 46194};
    if (degrees == 0)
        return WENGELUDO_NONE;
    unsigned __int128 value = critical[degrees - 1];
    if (cost <= value)
        return WENGELUDO_PASS;
    return 4 * cost <= 4 * value + weights ? WENGELUDO_CLOSE : WENGELUDO_FAIL;
}

/* What the streams of a sheet sum up to: the cost, the weights of the A streams, the net of each place and whether it has a blank. */
struct sums { unsigned __int128 cost; uint32_t weights; int64_t net[33]; int blank[33]; };

/* A stream of a sheet: its class by metered or not, its range, the reading of one that is as read. */
static void stream_fits(const struct parts *p, size_t k, uint8_t kind, int64_t flow, struct sums *s)
{
    if ((kind <= WENGELUDO_AS_READ) != p->metered[k])
        fail("a class of the other kind");
    if (kind == WENGELUDO_WITHHELD) {
        s->blank[p->from[k]] = s->blank[p->to[k]] = 1;
        return;
    }
    s->net[p->from[k]] -= flow;
    s->net[p->to[k]] += flow;
    if (kind == WENGELUDO_AS_READ && flow != nearest(p, k))
        fail("a stream as read with another flow");
    if (p->ranged[k] && (flow < p->low[k] || flow > p->high[k]))
        fail("a flow out of its range");
    if (p->ranged[k])
        seen(OF_RANGES + (flow == p->low[k]) + 2 * (flow == p->high[k]));
    if (kind == WENGELUDO_ADJUSTED)
        s->weights += p->weight[k];
    __int128 off = (__int128)flow - p->reading[k];
    if (p->metered[k])
        s->cost += (unsigned __int128)p->weight[k] * (unsigned __int128)(off * off);
}

/* The sheet fits its streams: classes by metered or not, the flows' balance where no flow is withheld, ranges, the cost, and
 * the verdict by cost and degrees. */
void sheet_fits(uint8_t units, const struct parts *p, size_t count, const uint8_t *sheet, size_t written)
{
    size_t at = 0;
    struct sums s = {0};
    for (size_t k = 0; k < count; k++) {
        uint8_t kind = sheet[at];
        seen(OF_KINDS + (kind & 3) * 97 + count);
        if (kind < WENGELUDO_ADJUSTED || kind > WENGELUDO_WITHHELD)
            fail("no stream record where one is due");
        stream_fits(p, k, kind, (int64_t)field(sheet + at + 1, kind == WENGELUDO_WITHHELD ? 0 : 8), &s);
        at += kind == WENGELUDO_WITHHELD ? 1 : 9;
    }
    for (int place = 0; place <= units; place++)
        if (!s.blank[place] && s.net[place] != 0)
            fail("a place does not balance");
    uint64_t capped = s.cost > UINT64_MAX ? UINT64_MAX : (uint64_t)s.cost;
    if (at + 16 != written || sheet[at] != WENGELUDO_TOTAL || field(sheet + at + 6, 8) != capped)
        fail("a wrong total");
    uint8_t degrees = sheet[at + 14], verdict = sheet[at + 15];
    if (degrees > 32 || verdict != verdict_of(degrees, s.cost, s.weights))
        fail("a wrong verdict");
    /* Verdict 2 comes at degrees 0 alone, and there comes no other: elsewhere its counter is that of 3. */
    seen(OF_DEGREES + degrees * 3u + (verdict == WENGELUDO_CLOSE ? WENGELUDO_NONE : verdict));
    if (s.cost > UINT64_MAX)
        seen(OVER_THE_CAP);
}

/* The marked places must take in more than they can let out, and every stream across their edge has a range. */
void marks_fit(uint8_t units, const struct parts *p, size_t count, uint64_t marked)
{
    int64_t more = 0;
    if (marked >> units >> 1 != 0)
        fail("a place above the units is marked");
    for (size_t k = 0; k < count; k++) {
        int from = marked >> p->from[k] & 1, to = marked >> p->to[k] & 1;
        if (from == to)
            continue;
        if (!p->ranged[k])
            fail("a stream without a range crosses the edge of the marked places");
        more += to ? p->low[k] : -(int64_t)p->high[k];
    }
    if (more <= 0)
        fail("the marked places can let out what they must take in");
    seen(OF_OUTSIDE + (marked & 1));
    seen(OF_MARKED + (size_t)__builtin_popcountll(marked));
}
