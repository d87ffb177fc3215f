/* What the programs of this folder share: a file read, words that are numbers, and whether what was printed reached its end. Each
 * function that finds something wrong says so on standard error. */
/* SPDX-License-Identifier: LicenseRef-Wengeludo */
#ifndef WENGELUDO_COMMON_H
#define WENGELUDO_COMMON_H

#include <errno.h>
#include <inttypes.h>
#include <stdio.h>
#include <stdlib.h>
#include <string.h>

#include "wengeludo_balance.h"

/* Exit statuses: an answer, a refusal, and a command line, a file or an output that is no good. */
enum { ANSWERED = 0, REFUSED = 1, FAILED = 2 };

/* One byte more than the longest plant file: a longer one is refused for what follows its end record. */
enum { MOST_BYTES = WENGELUDO_FILE_SIZE + 1 };

/* At most so many bytes of a file; 0 where it cannot be read. */
static inline int read_bytes(const char *program, const char *name, uint8_t *bytes, size_t most, size_t *length)
{
    errno = 0;
    FILE *in = fopen(name, "rb");
    *length = in != NULL ? fread(bytes, 1, most, in) : 0;
    int failed = in == NULL || ferror(in), why = errno;
    if (in != NULL)
        fclose(in);
    if (failed)
        fprintf(stderr, "%s: %s cannot be read: %s\n", program, name, strerror(why));
    return !failed;
}

/* A word as a number of at most `most`; 0 where it is none. */
static inline int read_number(const char *word, uint64_t most, uint64_t *number)
{
    char *end;
    *number = strtoull(word, &end, 10);
    return *word >= '0' && *word <= '9' && *end == '\0' && *number <= most;
}

/* The words as numbers of at most `most`, so many of them as there is room for; 0 where one is no such number. */
static inline int read_list(int count, char **words, uint64_t most, uint64_t *numbers, size_t room, size_t *listed)
{
    for (*listed = 0; *listed < (size_t)count && *listed < room; ++*listed)
        if (!read_number(words[*listed], most, &numbers[*listed]))
            return 0;
    return 1;
}

static inline int usage(const char *program, const char *words)
{
    fprintf(stderr, "usage: %s %s\n", program, words);
    return FAILED;
}

/* Of wengeludo_fault.h. A program that is linked with the archive alone goes without it. */
uint8_t wengeludo_plant_fault_at(const uint8_t *file, size_t file_length, size_t *byte, size_t *stream) __attribute__((weak));

/* The line of the place, if this plant file is what is refused with this number. */
static inline void print_place(uint8_t refusal, const uint8_t *file, size_t length)
{
    size_t byte, stream;
    if (wengeludo_plant_fault_at == NULL || wengeludo_plant_fault_at(file, length, &byte, &stream) != refusal)
        return;
    if (stream != 0)
        printf("at byte %zu, stream %zu\n", byte, stream);
    else
        printf("at byte %zu\n", byte);
}

/* A refusal's line, if there is one, and where the plant file is at fault, if it is; the status of an answer or a refusal. */
static inline int told(uint8_t refusal, const uint8_t *file, size_t length)
{
    if (refusal == WENGELUDO_DONE)
        return ANSWERED;
    printf("refused %d\n", refusal);
    if (file != NULL)
        print_place(refusal, file, length);
    return REFUSED;
}

/* The status, where what was printed reached its end. */
static inline int finish(const char *program, int status)
{
    if (fflush(stdout) == 0 && !ferror(stdout))
        return status;
    fprintf(stderr, "%s: standard output cannot be written\n", program);
    return FAILED;
}

#endif
