/* The solver and its check over drawn and hostile plants, for ASan and UBSan (sanitize.sh): every array is as long as it must be and no
 * longer, numbers are small, at their limits, or any. What is answered 0 must pass the check again, what is answered 19 must mark places;
 * the rows of a plant are what it is by itself.
 *
 *     wide_fuzz ROUNDS
 */
/* SPDX-License-Identifier: LicenseRef-Wengeludo */
#include "wide_solve.h"
#include "wengeludo_balance.h"

#include <inttypes.h>
#include <stdio.h>
#include <stdlib.h>
#include <string.h>

static uint64_t state = 1;

static uint64_t drawn(void) /* splitmix64 */
{
    uint64_t z = state += UINT64_C(0x9E3779B97F4A7C15);
    z = (z ^ z >> 30) * UINT64_C(0xBF58476D1CE4E5B9);
    z = (z ^ z >> 27) * UINT64_C(0x94D049BB133111EB);
    return z ^ z >> 31;
}

static uint64_t below(uint64_t end) { return drawn() % end; }

/* A number about a power of two, of either sign; now and then an extreme one. */
static int64_t number(unsigned bits)
{
    static const int64_t extreme[] = {INT64_MIN, INT64_MIN + 1, INT64_MAX, INT64_MAX - 1, 0, -1, 1};
    if (below(200) == 0)
        return extreme[below(7)];
    int64_t size = (int64_t)(drawn() >> (64 - 1 - below(bits)) >> 1);
    return below(2) ? size : -size;
}

static void *array(size_t count, size_t size)
{
    void *found = malloc(count * size + (count == 0));
    if (!found)
        exit(2);
    return found;
}

typedef struct {
    uint8_t *from, *to, *metered, *ranged;
    uint64_t *weight;
    int64_t *reading, *low, *high, *flow, *number;
} memory;

static memory lent(size_t count, size_t places)
{
    memory m = {array(count, 1), array(count, 1), array(count, 1), array(count, 1), array(count, 8), array(count, 8),
                array(count, 8), array(count, 8), array(count, 8), array(places, 8)};
    return m;
}

static void given_back(memory m)
{
    void *all[] = {m.from, m.to, m.metered, m.ranged, m.weight, m.reading, m.low, m.high, m.flow, m.number};
    for (int k = 0; k < 10; k++)
        free(all[k]);
}

static void draw_stream(memory m, size_t k, unsigned units, unsigned bits)
{
    unsigned beyond = below(400) == 0 ? 3 : 1;
    m.from[k] = (uint8_t)below(units + beyond);
    m.to[k] = (uint8_t)below(units + beyond);
    if (m.from[k] == m.to[k] && below(300))
        m.to[k] = (uint8_t)((m.from[k] + 1) % (units + 1));
    m.metered[k] = (uint8_t)(below(6) ? 1 + below(255) : 0);
    m.ranged[k] = (uint8_t)(below(3) ? 0 : 1 + below(255));
    m.weight[k] = below(500) == 0 ? drawn() : (drawn() >> (24 + below(40))) + 1;
    m.reading[k] = number(bits);
    m.low[k] = number(bits + 8);
    m.high[k] = m.low[k] < 0 || below(100) == 0 ? number(bits + 8) : INT64_MAX - (int64_t)below(2) * (INT64_MAX - m.low[k]);
    if (m.high[k] < m.low[k] && below(100)) {
        int64_t high = m.low[k];
        m.low[k] = m.high[k];
        m.high[k] = high;
    }
}

/* The plant in rows, in each of which some meters do not count: every row is what the plant with those meters is by itself. */
static void rows_of(const wide_plant *plant)
{
    size_t rows = below(3), count = plant->count, places = (size_t)plant->units + 1, passed, counted = 0;
    uint64_t *weights = array(rows * count, 8), marked;
    int64_t *readings = array(rows * count, 8), *flows = array(rows * count, 8), *numbers = array(rows * places, 8);
    int64_t *flow = array(count, 8), *number = array(places, 8);
    uint8_t *answers = array(rows, 1), *metered = array(count, 1);
    for (size_t k = 0; k < rows * count; k++) {
        weights[k] = below(5) ? plant->weight[k % count] : 0;
        readings[k] = plant->reading[(k + k / count) % count];
    }
    passed = wide_rows(plant, rows, weights, readings, flows, numbers, answers);
    for (size_t r = 0; r < rows; r++) {
        wide_plant one = *plant;
        for (size_t k = 0; k < count; k++)
            metered[k] = plant->metered[k] && weights[r * count + k];
        one.metered = metered;
        one.weight = weights + r * count;
        one.reading = readings + r * count;
        uint8_t answer = wide_checked(&one, flow, number, &marked);
        counted += answer == 0;
        if (answer != answers[r] || (count && memcmp(flow, flows + r * count, 8 * count)) || memcmp(number, numbers + r * places, 8 * places)) {
            fprintf(stderr, "row %zu is answered %u, by itself %u, or has another flow\n", r, answers[r], answer);
            exit(1);
        }
    }
    if (passed != counted) {
        fprintf(stderr, "%zu rows pass, and %zu are told\n", counted, passed);
        exit(1);
    }
    void *all[] = {weights, readings, flows, numbers, flow, number, answers, metered};
    for (int k = 0; k < 8; k++)
        free(all[k]);
}

/* One plant; gives its answer. */
static uint8_t round_of(void)
{
    unsigned units = below(100) ? 1 + (unsigned)below(below(3) ? 8 : 32) : (unsigned)below(256);
    size_t count = below(100) ? below(below(3) ? 20 : 97) : below(300);
    static const unsigned sizes[] = {3, 10, 20, 30, 41, 55};
    unsigned bits = sizes[below(6)];
    memory m = lent(count, units + 1);
    for (size_t k = 0; k < count; k++)
        draw_stream(m, k, units, bits);
    wide_plant plant = {(uint8_t)units, count, m.from, m.to, m.metered, m.weight, m.reading, m.ranged, m.low, m.high};
    uint64_t marked = 77;
    uint8_t answer = wide_checked(&plant, m.flow, m.number, &marked);
    uint8_t again = wengeludo_check_flow(plant.units, count, m.from, count, m.to, count, m.metered, count, m.weight, count, m.reading,
                                         count, m.ranged, count, m.low, count, m.high, count, m.flow, count, m.number, units + 1);
    if ((answer == 0 && again != 0) || (answer != 0 && answer != 19 && answer != again && again != 26) || (answer == 19) != (marked != 0)) {
        fprintf(stderr, "answered %u, the check %u, marked %" PRIx64 "\n", answer, again, marked);
        exit(1);
    }
    rows_of(&plant);
    given_back(m);
    return answer;
}

int main(int words, char **word)
{
    long rounds = words > 1 ? strtol(word[1], NULL, 10) : 2000;
    long counted[256] = {0};
    for (long k = 0; k < rounds; k++)
        counted[round_of()]++;
    printf("%ld plants:", rounds);
    for (int k = 0; k < 256; k++)
        if (counted[k])
            printf(" %d: %ld", k, counted[k]);
    printf("\n");
    return 0;
}
