/* Lists the meters worth a visit of the plant file that is named on the command line: prints, for every A stream, its number and
 * the least cost with that stream, and its range, made unmetered, by that cost, equals by number. A refusal prints its number.
 *
 *     visits_file FILE
 *
 * Exit status: 0 a list, 1 a refusal, 2 the command line is wrong, the file cannot be read or the text not be written.
 */
/* SPDX-License-Identifier: LicenseRef-Wengeludo */
#include "common.h"

int main(int count_of_words, char **words)
{
    uint8_t file[MOST_BYTES];
    size_t length, count;
    uint8_t streams[WENGELUDO_MAX_STREAMS];
    uint64_t costs[WENGELUDO_MAX_STREAMS];
    if (count_of_words != 2)
        return usage(words[0], "FILE");
    if (!read_bytes(words[0], words[1], file, sizeof file, &length))
        return FAILED;
    uint8_t refusal = wengeludo_visits(file, length, streams, WENGELUDO_MAX_STREAMS, costs, WENGELUDO_MAX_STREAMS, &count);
    int status = told(refusal, file, length);
    for (size_t k = 0; k < count; k++)
        printf("%d %" PRIu64 "\n", streams[k], costs[k]);
    return finish(words[0], status);
}
