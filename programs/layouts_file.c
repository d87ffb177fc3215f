/* Surveys the meter layouts of the plant file that is named on the command line: prints, for each k from 0 to the number of
 * streams, k and how many choices of k metered streams leave none withheld. A refusal prints its number.
 *
 *     layouts_file FILE
 *
 * Exit status: 0 a survey, 1 a refusal, 2 the command line is wrong, the file cannot be read or the text not be written.
 */
/* SPDX-License-Identifier: LicenseRef-Wengeludo */
#include "common.h"

int main(int count_of_words, char **words)
{
    uint8_t file[MOST_BYTES];
    size_t length, count;
    uint16_t counts[WENGELUDO_SURVEY_SIZE];
    if (count_of_words != 2)
        return usage(words[0], "FILE");
    if (!read_bytes(words[0], words[1], file, sizeof file, &length))
        return FAILED;
    uint8_t refusal = wengeludo_layouts_of(file, length, counts, WENGELUDO_SURVEY_SIZE, &count);
    int status = told(refusal, file, length);
    for (size_t k = 0; status == ANSWERED && k <= count; k++)
        printf("%zu %d\n", k, counts[k]);
    return finish(words[0], status);
}
