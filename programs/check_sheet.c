/* Checks a sheet, drawn up here or elsewhere, against its plant file, with one number for each place.
 *
 *     check_sheet PLANT SHEET NUMBERS
 *
 * PLANT and SHEET are the bytes of a plant file and of a sheet; NUMBERS is text, the numbers of the places 0 to n with blanks or
 * line ends between them, as place_numbers prints them. Prints `passes`, or `refused` and a number; after 26 a line with the first
 * broken rule in words.
 *
 * Exit status: 0 it passes, 1 a refusal, 2 the command line is wrong, a file cannot be read or the text not be written.
 */
/* SPDX-License-Identifier: LicenseRef-Wengeludo */
#include "common.h"
#include "rules.h"

/* One more than the longest sheet, and than the most numbers: what is longer is refused all the same. */
enum { MOST_SHEET = WENGELUDO_SHEET_SIZE + 1, MOST_NUMBERS = WENGELUDO_MAX_PLACES + 1 };

/* The numbers of a text; 0 where it cannot be read, or holds something else than numbers of 64 bits. */
static int read_numbers(const char *program, const char *name, int64_t *numbers, size_t *count)
{
    char word[32], *end;
    FILE *in = fopen(name, "r");
    int good = in != NULL;
    for (*count = 0; good && *count < MOST_NUMBERS && fscanf(in, "%31s", word) == 1; ++*count) {
        errno = 0;
        numbers[*count] = strtoll(word, &end, 10);
        good = *end == '\0' && errno == 0;
    }
    good = good && !ferror(in);
    if (in != NULL)
        fclose(in);
    if (!good)
        fprintf(stderr, "%s: %s cannot be read, or has other words than numbers\n", program, name);
    return good;
}

/* Words for a 26. */
static void print_rule(const uint8_t *plant, size_t plant_length, const uint8_t *sheet, size_t sheet_length, const int64_t *numbers,
                       size_t count)
{
    char words[WORDS];
    if (broken_rule(plant, plant_length, sheet, sheet_length, numbers, count, words))
        printf("%s\n", words);
}

int main(int count_of_words, char **words)
{
    uint8_t plant[MOST_BYTES], sheet[MOST_SHEET];
    int64_t numbers[MOST_NUMBERS];
    size_t plant_length, sheet_length, count;
    if (count_of_words != 4)
        return usage(words[0], "PLANT SHEET NUMBERS");
    if (!read_bytes(words[0], words[1], plant, sizeof plant, &plant_length)
        || !read_bytes(words[0], words[2], sheet, sizeof sheet, &sheet_length) || !read_numbers(words[0], words[3], numbers, &count))
        return FAILED;
    uint8_t refusal = wengeludo_check_sheet(plant, plant_length, sheet, sheet_length, numbers, count);
    int status = told(refusal, plant, plant_length);
    if (status == ANSWERED)
        printf("passes\n");
    if (refusal == WENGELUDO_RULE_BROKEN)
        print_rule(plant, plant_length, sheet, sheet_length, numbers, count);
    return finish(words[0], status);
}
