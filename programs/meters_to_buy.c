/* Says on which streams of a plant to fit a meter so that nothing is withheld, at the least price.
 *
 *     meters_to_buy FILE [PRICE..]
 *
 * The prices are one for each unmetered stream, in stream order. Prints a line `buy` with the number of each stream to be
 * metered, then `price` and what they cost together; or `refused` and a number.
 *
 * Exit status: 0 an answer, 1 a refusal, 2 the command line is wrong, the file cannot be read or the text not be written.
 */
/* SPDX-License-Identifier: LicenseRef-Wengeludo */
#include "common.h"

/* One more than the most prices: more are refused all the same. */
enum { MOST_PRICES = WENGELUDO_MAX_STREAMS + 1 };

int main(int count_of_words, char **words)
{
    uint8_t file[MOST_BYTES], streams[WENGELUDO_MAX_STREAMS];
    uint32_t prices[MOST_PRICES], price;
    uint64_t given[MOST_PRICES];
    size_t length, listed, count;
    if (count_of_words < 2 || !read_list(count_of_words - 2, words + 2, UINT32_MAX, given, MOST_PRICES, &listed))
        return usage(words[0], "FILE [PRICE..]");
    for (size_t k = 0; k < listed; k++)
        prices[k] = (uint32_t)given[k];
    if (!read_bytes(words[0], words[1], file, sizeof file, &length))
        return FAILED;
    uint8_t refusal = wengeludo_meters_to_buy(file, length, prices, listed, streams, sizeof streams, &count, &price);
    int status = told(refusal, file, length);
    for (size_t k = 0; k < count; k++)
        printf("buy %d\n", streams[k]);
    if (status == ANSWERED)
        printf("price %" PRIu32 "\n", price);
    return finish(words[0], status);
}
