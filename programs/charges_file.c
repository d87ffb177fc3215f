/* Bills the streams to the outside of the plant file that is named on the command line.
 *
 *     charges_file FILE [RATE..]
 *
 * The rates are one for each stream to the outside, in stream order, in ten-thousandths of a cent per kg. Prints for each of these
 * streams its number and what it is charged for one hour, in cents, then `bill` and the bill; or `refused` and a number.
 *
 * Exit status: 0 a bill, 1 a refusal, 2 the command line is wrong, the file cannot be read or the text not be written.
 */
/* SPDX-License-Identifier: LicenseRef-Wengeludo */
#include "common.h"

/* One more than the most rates: more are refused all the same. */
enum { MOST_RATES = WENGELUDO_MAX_STREAMS + 1 };

int main(int count_of_words, char **words)
{
    uint8_t file[MOST_BYTES], streams[WENGELUDO_MAX_STREAMS];
    uint16_t rates[MOST_RATES];
    int64_t charges[WENGELUDO_MAX_STREAMS], bill;
    uint64_t given[MOST_RATES];
    size_t length, listed, count;
    if (count_of_words < 2 || !read_list(count_of_words - 2, words + 2, UINT16_MAX, given, MOST_RATES, &listed))
        return usage(words[0], "FILE [RATE..]");
    for (size_t k = 0; k < listed; k++)
        rates[k] = (uint16_t)given[k];
    if (!read_bytes(words[0], words[1], file, sizeof file, &length))
        return FAILED;
    uint8_t refusal = wengeludo_charges(file, length, rates, listed, streams, WENGELUDO_MAX_STREAMS, charges, WENGELUDO_MAX_STREAMS,
                                        &count, &bill);
    int status = told(refusal, file, length);
    for (size_t k = 0; k < count; k++)
        printf("%d %" PRId64 "\n", streams[k], charges[k]);
    if (status == ANSWERED)
        printf("bill %" PRId64 "\n", bill);
    return finish(words[0], status);
}
