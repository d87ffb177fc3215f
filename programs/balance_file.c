/* Balances the plant file that is named on the command line, for an office, 0 where none is given, under the sheet number after
 * the last one that is given for it, and prints the sheet: per stream its number, class letter, flow or '-'; then the total. A
 * refusal prints its number; 19 also prints the marked places, and a plant file that is at fault the byte, counted from 0, and the stream.
 *
 *     balance_file FILE [LAST [OFFICE]]
 *
 * Exit status: 0 a sheet, 1 a refusal, 2 the command line is wrong, the file cannot be read or the text not be written.
 */
/* SPDX-License-Identifier: LicenseRef-Wengeludo */
#include "common.h"

/* Reads the sheet back in and prints it; the number of a refusal, or 0. */
static uint8_t print_sheet(const uint8_t *sheet, size_t written)
{
    static const char classes[] = "ARGW";
    static const char *const verdicts[] = {"pass", "fail", "none", "close"};
    uint8_t kinds[WENGELUDO_MAX_STREAMS], kind, office, degrees, verdict;
    int64_t flows[WENGELUDO_MAX_STREAMS];
    size_t count;
    uint32_t number;
    uint64_t cost;
    uint8_t refusal = wengeludo_read_sheet(sheet, written, kinds, WENGELUDO_MAX_STREAMS, flows, WENGELUDO_MAX_STREAMS,
                                           &count, &kind, &office, &number, &cost, &degrees, &verdict);
    if (refusal != WENGELUDO_DONE)
        return refusal;
    for (size_t k = 0; k < count; k++) {
        char class = classes[kinds[k] - WENGELUDO_ADJUSTED];
        if (kinds[k] == WENGELUDO_WITHHELD)
            printf("%zu %c -\n", k + 1, class);
        else
            printf("%zu %c %" PRId64 "\n", k + 1, class, flows[k]);
    }
    printf("total %" PRIu32 " %" PRIu64 " %d %s\n", number, cost, degrees, verdicts[verdict]);
    return 0;
}

/* The places marked, in rising order: they must take in more than they can let out. */
static void print_marked(uint64_t marked)
{
    printf("marked");
    for (int place = 0; place <= WENGELUDO_MAX_UNITS; place++)
        if (marked >> place & 1)
            printf(" %d", place);
    printf("\n");
}

/* A number of the command line, of at most `most`, or 0 where the word is left out; 0 is returned where it is no such number. */
static int optional(int count, char **words, int k, uint64_t most, const char *what, uint64_t *number)
{
    *number = 0;
    if (count <= k || read_number(words[k], most, number))
        return 1;
    fprintf(stderr, "%s: no %s: %s\n", words[0], what, words[k]);
    return 0;
}

int main(int count, char **words)
{
    uint8_t file[MOST_BYTES], sheet[WENGELUDO_SHEET_SIZE];
    uint32_t lasts[WENGELUDO_OFFICES] = {0};
    size_t length, written;
    uint64_t last, office, marked;
    if (count < 2 || count > 4)
        return usage(words[0], "FILE [LAST [OFFICE]]");
    if (!optional(count, words, 2, UINT32_MAX, "sheet number", &last) || !optional(count, words, 3, UINT8_MAX, "office", &office)
        || !read_bytes(words[0], words[1], file, sizeof file, &length))
        return FAILED;
    if (office < WENGELUDO_OFFICES)
        lasts[office] = (uint32_t)last;
    uint8_t refusal = wengeludo_balance_plant(file, length, (uint8_t)office, lasts, WENGELUDO_OFFICES, sheet, sizeof sheet,
                                              &written, &marked);
    if (refusal == WENGELUDO_DONE)
        refusal = print_sheet(sheet, written);
    int status = told(refusal, file, length);
    if (refusal == WENGELUDO_NO_FLOW)
        print_marked(marked);
    return finish(words[0], status);
}
