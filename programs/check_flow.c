/* Checks a flow that was found elsewhere, of a plant with wide weights and readings, with one number for each place.
 *
 *     check_flow FLOW
 *
 * FLOW is text, a line for each thing; whole numbers with blanks between them, and # before what is not to be read:
 *
 *     units N
 *     metered FROM TO WEIGHT READING FLOW
 *     ranged FROM TO WEIGHT READING LOW HIGH FLOW
 *     unmetered FROM TO FLOW
 *     number PLACE NUMBER                              one for each of the places 0 to N
 *
 * Prints `passes` and what the flow costs, the sum of weight times (flow less reading) squared, or `refused` and a number.
 *
 * Exit status: 0 it passes, 1 a refusal, 2 the command line is wrong, the file cannot be read or the text not be written.
 */
/* SPDX-License-Identifier: LicenseRef-Wengeludo */
#define _POSIX_C_SOURCE 200809L
#include "common.h"

__extension__ typedef unsigned __int128 wide;

/* One more than the most streams, and than the most places: what is more is refused. */
enum { MOST = WENGELUDO_MAX_STREAMS + 1, PLACES = 256, WORDS = 7 };

struct site {
    uint8_t units, from[MOST], to[MOST], metered[MOST], ranged[MOST];
    uint64_t weight[MOST];
    int64_t reading[MOST], low[MOST], high[MOST], flow[MOST], number[PLACES];
    size_t count;
};

/* The kinds of line, and how many numbers each has. */
static const struct { const char *kind; int numbers; } LINES[] = {
    {"units", 1}, {"metered", 5}, {"ranged", 7}, {"unmetered", 3}, {"number", 2},
};

static int in_bytes(int64_t number) { return number >= 0 && number <= 255; }

static int add_stream(struct site *s, int metered, int ranged, const int64_t *x)
{
    size_t k = s->count;
    if (k >= MOST || !in_bytes(x[0]) || !in_bytes(x[1]))
        return 0;
    s->from[k] = (uint8_t)x[0];
    s->to[k] = (uint8_t)x[1];
    s->metered[k] = (uint8_t)metered;
    s->ranged[k] = (uint8_t)ranged;
    s->weight[k] = metered && x[2] > 0 ? (uint64_t)x[2] : 0;
    s->reading[k] = metered ? x[3] : 0;
    s->low[k] = ranged ? x[4] : 0;
    s->high[k] = ranged ? x[5] : 0;
    s->flow[k] = ranged ? x[6] : metered ? x[4] : x[2];
    s->count++;
    return 1;
}

static int add_line(struct site *s, int kind, const int64_t *x)
{
    if (kind >= 1 && kind <= 3)
        return add_stream(s, kind < 3, kind == 2, x);
    if (!in_bytes(x[0]))
        return 0;
    if (kind == 0)
        s->units = (uint8_t)x[0];
    else
        s->number[x[0]] = x[1];
    return 1;
}

/* The numbers of a line after its first word; how many there are, -1 where a word is none. */
static int read_words(char **line, int64_t *x)
{
    char *word, *end;
    int count = 0;
    while ((word = strtok_r(NULL, " \t\r\n", line)) != NULL) {
        errno = 0;
        if (count == WORDS)
            return -1;
        x[count++] = strtoll(word, &end, 10);
        if (*end != '\0' || errno != 0)
            return -1;
    }
    return count;
}

static int read_line(struct site *s, char *line)
{
    int64_t x[WORDS];
    char *rest, *word;
    line[strcspn(line, "#")] = '\0';
    word = strtok_r(line, " \t\r\n", &rest);
    if (word == NULL)
        return 1;
    int count = read_words(&rest, x);
    for (int kind = 0; kind < 5; kind++)
        if (strcmp(word, LINES[kind].kind) == 0)
            return count == LINES[kind].numbers && add_line(s, kind, x);
    return 0;
}

static int unread(const char *program, const char *name)
{
    fprintf(stderr, "%s: %s cannot be read: %s\n", program, name, strerror(errno));
    return 0;
}

static int read_site(const char *program, const char *name, struct site *s)
{
    char line[512];
    int at = 0, good = 1;
    FILE *in = fopen(name, "r");
    if (in == NULL)
        return unread(program, name);
    while (good && fgets(line, sizeof line, in) != NULL) {
        at++;
        good = (strchr(line, '\n') != NULL || feof(in)) && read_line(s, line);
    }
    if (ferror(in))
        good = unread(program, name);
    else if (!good)
        fprintf(stderr, "%s: line %d of %s is none of: units N; metered FROM TO WEIGHT READING FLOW; ranged FROM TO WEIGHT READING LOW "
                        "HIGH FLOW; unmetered FROM TO FLOW; number PLACE NUMBER\n", program, at, name);
    fclose(in);
    return good;
}

/* At most 96 * 2^40 * 2^112, which 128 bits do not hold: the cost is left out where it passes them. */
static int cost_of(const struct site *s, wide *cost)
{
    *cost = 0;
    for (size_t k = 0; k < s->count; k++) {
        uint64_t flow = (uint64_t)s->flow[k], reading = (uint64_t)s->reading[k];
        uint64_t off = s->flow[k] < s->reading[k] ? reading - flow : flow - reading;
        if (s->metered[k] && off > UINT64_C(1) << 40)
            return 0;
        *cost += s->metered[k] ? (wide)s->weight[k] * off * off : 0;
    }
    return 1;
}

static void print_cost(wide cost)
{
    char digits[40];
    int at = sizeof digits - 1;
    digits[at] = '\0';
    do {
        digits[--at] = (char)('0' + (int)(cost % 10));
        cost /= 10;
    } while (cost != 0);
    printf("cost %s\n", digits + at);
}

int main(int count_of_words, char **words)
{
    static struct site s;
    wide cost;
    if (count_of_words != 2)
        return usage(words[0], "FLOW");
    if (!read_site(words[0], words[1], &s))
        return FAILED;
    size_t n = s.count;
    uint8_t refusal = wengeludo_check_flow(s.units, n, s.from, n, s.to, n, s.metered, n, s.weight, n, s.reading, n, s.ranged, n, s.low, n,
                                           s.high, n, s.flow, n, s.number, (size_t)s.units + 1);
    int status = told(refusal, NULL, 0);
    if (status == ANSWERED)
        printf("passes\n");
    if (status == ANSWERED && cost_of(&s, &cost))
        print_cost(cost);
    return finish(words[0], status);
}
