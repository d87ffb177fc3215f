/* Prints numbers of the places of the plant file that is named on the command line, one a line, the outside's first: with them each
 * of its sheets passes check_sheet. A refusal prints its number.
 *
 *     place_numbers FILE
 *
 * Exit status: 0 numbers, 1 a refusal, 2 the command line is wrong, the file cannot be read or the text not be written.
 */
/* SPDX-License-Identifier: LicenseRef-Wengeludo */
#include "common.h"

int main(int count_of_words, char **words)
{
    uint8_t file[MOST_BYTES];
    size_t length, count;
    int64_t numbers[WENGELUDO_MAX_PLACES];
    if (count_of_words != 2)
        return usage(words[0], "FILE");
    if (!read_bytes(words[0], words[1], file, sizeof file, &length))
        return FAILED;
    uint8_t refusal = wengeludo_place_numbers(file, length, numbers, WENGELUDO_MAX_PLACES, &count);
    int status = told(refusal, file, length);
    for (size_t u = 0; u < count; u++)
        printf("%" PRId64 "\n", numbers[u]);
    return finish(words[0], status);
}
