/* The survey of meter layouts: what is returned, and for few streams the counts by brute force. */
/* SPDX-License-Identifier: LicenseRef-Wengeludo */
#include "target.h"

/* Whether the streams that are not in the set have no loop: each joins two sets of places. */
static int no_loop(const struct parts *p, size_t count, unsigned set)
{
    uint8_t label[256];
    for (int u = 0; u < 256; u++)
        label[u] = (uint8_t)u;
    for (size_t k = 0; k < count; k++) {
        uint8_t a = label[p->from[k]], b = label[p->to[k]];
        if (set >> k & 1)
            continue;
        if (a == b)
            return 0;
        for (int u = 0; u < 256; u++)
            if (label[u] == b)
                label[u] = a;
    }
    return 1;
}

/* The survey of a file, of which the sheet call returned this number: what is returned, what stays as it was, and, for few
 * streams, the counts by brute force. */
void survey(const uint8_t *file, size_t size, uint8_t sheet_number)
{
    uint16_t counts[WENGELUDO_SURVEY_SIZE + 2], before[WENGELUDO_SURVEY_SIZE + 2];
    for (size_t k = 0; k < WENGELUDO_SURVEY_SIZE + 2; k++)
        counts[k] = before[k] = fill(k, (int)(size & 1));
    size_t count = 99;
    uint8_t returned = wengeludo_layouts_of(file, size, counts + 1, WENGELUDO_SURVEY_SIZE, &count);
    if (of_the_call(sheet_number))
        sheet_number = returned == WENGELUDO_TOO_MANY_TO_SURVEY ? 0 : returned;
    int taken = sheet_number == 0 || sheet_number == WENGELUDO_NO_FLOW;
    uint8_t due = !taken ? sheet_number : file[size - 1] > WENGELUDO_MAX_SURVEYED ? WENGELUDO_TOO_MANY_TO_SURVEY : 0;
    if (returned != due)
        fail("another number than the survey's");
    if (returned != 0) {
        if (count != 0 || memcmp(counts, before, sizeof counts) != 0)
            fail("a refused survey changed something");
        return;
    }
    struct parts p;
    if (count != listed(file, &p) || counts[0] != before[0] || counts[count + 1] != 1)
        fail("the survey's counts");
    for (size_t k = count + 2; k < WENGELUDO_SURVEY_SIZE + 2; k++)
        if (counts[k] != before[k])
            fail("an element past the survey's counts changed");
    if (count > 7)
        return;
    for (unsigned set = 0; set < 1u << count; set++)
        if (no_loop(&p, count, set))
            counts[1 + __builtin_popcount(set)]--;
    for (size_t k = 0; k <= count; k++)
        if (counts[1 + k] != 0)
            fail("a count of the survey");
}
