/* The place of a fault against the proved calls, over a pack of files (packaging/cross/pack.py): the number is the call's; all that comes
 * before the stream, ended there, is taken; the place is in the stream's record; and with a sound field at the place the file is not
 * refused there again.
 *
 *     test PACK...
 */
/* SPDX-License-Identifier: LicenseRef-Wengeludo */
#include "wengeludo_fault.h"

#include <stdio.h>
#include <stdlib.h>
#include <string.h>

enum { LONGEST = 4096, NUMBERS = 32 };
static uint8_t out[WENGELUDO_FILE_SIZE], pack[16 << 20];
static unsigned long seen[2][NUMBERS], files;

static uint8_t called(int transmitter, const uint8_t *file, size_t length)
{
    size_t written;
    return transmitter ? wengeludo_plant_from_transmitter(file, length, out, sizeof out, &written)
                       : wengeludo_to_ranged(file, length, out, sizeof out, &written);
}

static uint8_t placed(int transmitter, const uint8_t *file, size_t length, size_t *byte, size_t *stream)
{
    return transmitter ? wengeludo_transmitter_fault_at(file, length, byte, stream) : wengeludo_plant_fault_at(file, length, byte, stream);
}

static void fail(const char *what, const uint8_t *file, size_t length)
{
    printf("fault: %s: ", what);
    for (size_t i = 0; i < length && i < 200; i++)
        printf("%02x", file[i]);
    puts("");
    exit(1);
}

static size_t record_length(int transmitter, uint8_t kind)
{
    if (transmitter)
        return kind == WENGELUDO_FAULT ? 3 : kind == WENGELUDO_MEASURED || kind == WENGELUDO_HELD ? 15 : 1;
    return kind == 3 ? 3 : kind == 2 ? 9 : kind == 6 ? 17 : 1;
}

/* Where the record of this stream starts. */
static size_t start_of(int transmitter, const uint8_t *file, size_t stream)
{
    size_t at = 2;
    for (size_t k = 1; k < stream; k++)
        at += record_length(transmitter, file[at]);
    return at;
}

/* The streams before the one at fault, with an end, are a file that is taken. */
static void sound_before(int transmitter, const uint8_t *file, size_t length, size_t byte, size_t stream)
{
    uint8_t cut[LONGEST];
    const size_t at = start_of(transmitter, file, stream);
    if (at > length || at > byte || at + 2 > sizeof cut)
        fail("the fault is before its stream", file, length);
    if (byte < length && byte >= at + record_length(transmitter, file[at]))
        fail("the fault is behind its stream", file, length);
    memcpy(cut, file, at);
    cut[at] = 4;
    cut[at + 1] = (uint8_t)(stream - 1);
    if (called(transmitter, cut, at + 2) != WENGELUDO_DONE)
        fail("what comes before the stream is refused", file, length);
}

static void put(uint8_t *at, uint64_t value, int bytes)
{
    for (int k = 0; k < bytes; k++)
        at[k] = (uint8_t)(value >> 8 * (bytes - 1 - k));
}

/* Puts a sound field at the place; the length of the file that is then to be tried, 0 if a field cannot mend it. */
static size_t mended(int transmitter, uint8_t number, uint8_t *file, size_t length, size_t byte)
{
    const uint64_t ten = UINT64_C(0x4024000000000000);
    switch (number) {
    case WENGELUDO_KIND: return put(file + byte, byte == 0 ? 1 : transmitter ? WENGELUDO_FAULT : 3, 1), length;
    case WENGELUDO_UNITS: return put(file + byte, WENGELUDO_MAX_UNITS, 1), length;
    case WENGELUDO_PLACE: return put(file + byte, 0, 1), length;
    case WENGELUDO_SAME_PLACE: return put(file + byte, (file[byte] + 1u) % (file[1] + 1u), 1), length;
    case WENGELUDO_WEIGHT: return transmitter ? put(file + byte, ten, 8) : put(file + byte, 1, 2), length;
    case WENGELUDO_READING: return put(file + byte, 0, 4), length;
    case WENGELUDO_VALUE: return put(file + byte, 0, 4), length;
    case WENGELUDO_DEVIATION: return put(file + byte, ten, 8), length;
    case WENGELUDO_AFTER_END: return byte;
    default: return 0;
    }
}

/* The place of a fault, once its field is mended, is another one, further on. */
static void mends(int transmitter, const uint8_t *file, size_t length, uint8_t number, size_t byte, size_t of)
{
    uint8_t copy[LONGEST];
    size_t next, stream;
    if (length > sizeof copy)
        return;
    memcpy(copy, file, length);
    if (number == WENGELUDO_RANGE) /* the low at 9, the high at 13 of its record */
        put(copy + byte, byte - start_of(transmitter, file, of) == 9 ? (uint64_t)-(int64_t)WENGELUDO_MAX_RANGE : WENGELUDO_MAX_RANGE, 4);
    const size_t left = number == WENGELUDO_RANGE ? length : mended(transmitter, number, copy, length, byte);
    if (left == 0)
        return;
    const uint8_t then = called(transmitter, copy, left);
    const int further = then != placed(transmitter, copy, left, &next, &stream) ? 0 : then == WENGELUDO_DONE || next > byte;
    if (!further && !(number == WENGELUDO_PLACE && then == WENGELUDO_SAME_PLACE && next == byte))
        fail("a sound field at the place does not mend it", file, length);
}

/* Numbers that are of a stream's record alone. */
static int of_a_stream(uint8_t number)
{
    return number == WENGELUDO_TOO_MANY_STREAMS || (number >= WENGELUDO_PLACE && number <= WENGELUDO_READING) || number == WENGELUDO_VALUE ||
           number == WENGELUDO_DEVIATION || number == WENGELUDO_RANGE;
}

/* Cut off behind the field at fault and long before its record ends, the file is not refused for it; with the field, it is. */
static void compared(int transmitter, const uint8_t *file, size_t length)
{
    size_t byte = 7, stream = 7;
    const uint8_t number = placed(transmitter, file, length, &byte, &stream);
    if (number != called(transmitter, file, length))
        fail("another number than the call's", file, length);
    seen[transmitter][number % NUMBERS]++;
    if (number == WENGELUDO_DONE ? byte || stream : byte > length)
        fail("a place that is none", file, length);
    if (number == WENGELUDO_DONE)
        return;
    if (of_a_stream(number) && stream == 0)
        fail("no stream is named", file, length);
    mends(transmitter, file, length, number, byte, stream);
    if (stream)
        sound_before(transmitter, file, length, byte, stream);
    if ((number == WENGELUDO_FILE_ENDS) != (byte == length))
        fail("the place is the end of the file, and is not to be", file, length);
    if (byte < length && called(transmitter, file, byte) != WENGELUDO_FILE_ENDS && number != WENGELUDO_AFTER_END)
        fail("the file is refused before the place", file, length);
}

int main(int count, char **names)
{
    for (int k = 1; k < count; k++) {
        FILE *in = fopen(names[k], "rb");
        const size_t read = in != NULL ? fread(pack, 1, sizeof pack, in) : 0;
        for (size_t at = 0, length; at + 4 <= read; at += 4 + length) {
            length = (size_t)pack[at] << 24 | (size_t)pack[at + 1] << 16 | (size_t)pack[at + 2] << 8 | pack[at + 3];
            compared(0, pack + at + 4, length);
            compared(1, pack + at + 4, length);
            files++;
        }
        if (in != NULL)
            fclose(in);
    }
    static const uint8_t plant[] = {0, 3, 4, 5, 6, 7, 8, 9, 10, 11, 12, 18}, sent[] = {0, 3, 4, 5, 6, 7, 8, 9, 10, 11, 12, 16, 17};
    for (size_t k = 0; k < sizeof plant; k++)
        if (seen[0][plant[k]] == 0)
            return printf("fault: no plant file is refused %d\n", plant[k]), 1;
    for (size_t k = 0; k < sizeof sent; k++)
        if (seen[1][sent[k]] == 0)
            return printf("fault: no transmitter file is refused %d\n", sent[k]), 1;
    printf("fault: the place of the first fault of %lu files, each as plant file and as transmitter file; every refusal of both\n", files);
    return 0;
}
