/* The rules of the check of a sheet, one by one in exact numbers, so that the first one broken can be told in words. The check is
 * the archive's (wengeludo_check_sheet); what stands here only finds the words for its 26. */
/* SPDX-License-Identifier: LicenseRef-Wengeludo */
#ifndef WENGELUDO_RULES_H
#define WENGELUDO_RULES_H

#include <inttypes.h>
#include <stdio.h>

#include "wengeludo_balance.h"

enum { WORDS = 160 }; /* room for the words */

/* What a sheet shows. */
struct shown {
    uint8_t kinds[WENGELUDO_MAX_STREAMS], degrees, verdict;
    int64_t flows[WENGELUDO_MAX_STREAMS];
    size_t count;
    uint64_t cost;
};

/* Reads a sheet; the number of a refusal, or 0. */
static inline uint8_t read_shown(const uint8_t *bytes, size_t length, struct shown *s)
{
    uint8_t kind, office;
    uint32_t number;
    return wengeludo_read_sheet(bytes, length, s->kinds, WENGELUDO_MAX_STREAMS, s->flows, WENGELUDO_MAX_STREAMS, &s->count, &kind,
                                &office, &number, &s->cost, &s->degrees, &s->verdict);
}

/* A stream of a plant file that the plant reader takes. */
struct stream {
    uint8_t from, to;
    int metered, ranged;
    int32_t weight, reading, low, high;
};

static inline int32_t four(const uint8_t *at)
{
    return (int32_t)((uint32_t)at[0] << 24 | (uint32_t)at[1] << 16 | (uint32_t)at[2] << 8 | at[3]);
}

static inline size_t read_streams(const uint8_t *file, struct stream *streams)
{
    size_t count = 0;
    for (const uint8_t *at = file + 2; *at != 4; at += *at == 2 ? 9 : *at == 6 ? 17 : 3) {
        struct stream s = {.from = at[1], .to = at[2], .metered = *at != 3, .ranged = *at == 6};
        if (s.metered) {
            s.weight = at[3] << 8 | at[4];
            s.reading = four(at + 5);
        }
        if (s.ranged) {
            s.low = four(at + 9);
            s.high = four(at + 13);
        }
        streams[count++] = s;
    }
    return count;
}

/* What classes, degrees, cost and verdict have in common with ours; 1 and words where something differs. */
static inline int total_differs(const struct shown *sheet, const struct shown *ours, char *words, size_t room)
{
    static const char classes[] = "ARGW";
    static const char *const verdicts[] = {"pass", "fail", "none", "close"};
    if (sheet->count != ours->count)
        return snprintf(words, room, "the sheet lists %zu streams, the plant %zu", sheet->count, ours->count);
    for (size_t k = 0; k < ours->count; k++)
        if (sheet->kinds[k] != ours->kinds[k])
            return snprintf(words, room, "stream %zu: its class is %c, not %c", k + 1, classes[ours->kinds[k] - WENGELUDO_ADJUSTED],
                            classes[sheet->kinds[k] - WENGELUDO_ADJUSTED]);
    if (sheet->degrees != ours->degrees)
        return snprintf(words, room, "the degrees are %d, not %d", ours->degrees, sheet->degrees);
    if (sheet->cost != ours->cost)
        return snprintf(words, room, "the least cost is %" PRIu64 ", not %" PRIu64, ours->cost, sheet->cost);
    if (sheet->verdict != ours->verdict)
        return snprintf(words, room, "the verdict is %s, not %s", verdicts[ours->verdict], verdicts[sheet->verdict]);
    return 0;
}

/* The rules of one stream. Numbers are within their limit here, so that a difference has 64 bits. */
static inline int stream_breaks(const struct stream *s, size_t k, int64_t flow, __int128 difference, char *words, size_t room)
{
    __int128 d = (__int128)flow - s->reading;
    if (!s->metered)
        return difference == 0 ? 0 : snprintf(words, room, "stream %zu: it has no meter, and the numbers of its places differ by %" PRId64, k + 1, (int64_t)difference);
    if (s->ranged && (flow < s->low || flow > s->high))
        return snprintf(words, room, "stream %zu: its flow %" PRId64 " is outside its range %" PRId32 " to %" PRId32, k + 1, flow, s->low, s->high);
    if (difference < s->weight * (2 * d - 1) && !(s->ranged && flow == s->low))
        return snprintf(words, room, "stream %zu: the numbers of its places differ by %" PRId64 ", too little: a smaller flow would cost less", k + 1,
                        (int64_t)difference);
    if (difference > s->weight * (2 * d + 1) && !(s->ranged && flow == s->high))
        return snprintf(words, room, "stream %zu: the numbers of its places differ by %" PRId64 ", too much: a greater flow would cost less", k + 1,
                        (int64_t)difference);
    return 0;
}

/* The sets of places that W streams join. */
static inline int sums_differ(const struct stream *streams, const struct shown *sheet, uint8_t units, char *words, size_t room)
{
    uint8_t set[WENGELUDO_MAX_UNITS + 1];
    __int128 net[WENGELUDO_MAX_UNITS + 1] = {0};
    for (int u = 0; u <= units; u++)
        set[u] = (uint8_t)u;
    for (size_t k = 0; k < sheet->count; k++)
        for (int u = 0, one = set[streams[k].from], gone = set[streams[k].to]; sheet->kinds[k] == WENGELUDO_WITHHELD && u <= units; u++)
            if (set[u] == gone)
                set[u] = (uint8_t)one;
    for (size_t k = 0; k < sheet->count; k++)
        if (sheet->kinds[k] != WENGELUDO_WITHHELD) {
            net[set[streams[k].to]] += sheet->flows[k];
            net[set[streams[k].from]] -= sheet->flows[k];
        }
    for (int u = 0; u <= units; u++)
        if (net[set[u]] != 0)
            return snprintf(words, room, "place %d, with the places that W streams join to it: flows in and out have other sums", u);
    return 0;
}

/* The first broken rule of a plant file and a sheet that are read, in words; 0 where none is. `ours` is what our own sheet shows, or
 * NULL where the plant has none. */
static inline int first_broken(const uint8_t *file, const struct shown *sheet, const struct shown *ours, const int64_t *numbers,
                               size_t listed, char *words, size_t room)
{
    uint8_t units = file[1];
    struct stream streams[WENGELUDO_MAX_STREAMS];
    if (listed != (size_t)units + 1)
        return snprintf(words, room, "there are %zu numbers for %d places", listed, units + 1);
    for (size_t u = 0; u < listed; u++)
        if (numbers[u] < -WENGELUDO_MAX_NUMBER || numbers[u] > WENGELUDO_MAX_NUMBER)
            return snprintf(words, room, "place %zu: its number is past its limit", u);
    if (ours == NULL)
        return snprintf(words, room, "the plant has no sheet: no balanced flow lies within all ranges");
    int broken = total_differs(sheet, ours, words, room);
    size_t count = broken ? 0 : read_streams(file, streams);
    for (size_t k = 0; k < count && !broken; k++)
        broken = stream_breaks(&streams[k], k, sheet->flows[k], (__int128)numbers[streams[k].to] - numbers[streams[k].from], words, room);
    return broken ? broken : sums_differ(streams, sheet, units, words, room);
}

/* The first broken rule, in words, of a plant file and a sheet that the check has refused with 26; 0 if none is found. */
static inline int broken_rule(const uint8_t *plant, size_t plant_length, const uint8_t *sheet, size_t sheet_length, const int64_t *numbers,
                              size_t listed, char words[WORDS])
{
    uint8_t drawn[WENGELUDO_SHEET_SIZE];
    uint32_t lasts[WENGELUDO_OFFICES] = {0};
    size_t written;
    uint64_t marked;
    struct shown theirs, ours;
    int none = wengeludo_balance_plant(plant, plant_length, 0, lasts, WENGELUDO_OFFICES, drawn, sizeof drawn, &written, &marked) != 0;
    if (!none)
        read_shown(drawn, written, &ours);
    read_shown(sheet, sheet_length, &theirs);
    return first_broken(plant, &theirs, none ? NULL : &ours, numbers, listed, words, WORDS);
}

#endif
