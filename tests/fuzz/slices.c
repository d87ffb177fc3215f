/* Slices that end at a page that may not be touched, with a guard before them, and numbers in bytes. */
/* SPDX-License-Identifier: LicenseRef-Wengeludo */
#define _GNU_SOURCE
#include <sys/mman.h>

#include "target.h"

enum { AREA = 8192, PAGE = 4096 };

uint8_t *file_end, *out_end, *again_end, *kinds_end, *flows_end, *lasts_end;

uint8_t *area(void)
{
    uint8_t *memory = mmap(NULL, AREA + PAGE, PROT_READ | PROT_WRITE, MAP_PRIVATE | MAP_ANONYMOUS, -1, 0);
    if (memory == MAP_FAILED || mprotect(memory + AREA, PAGE, PROT_NONE) != 0)
        fail("no memory");
    return memory + AREA;
}

void make_areas(void)
{
    file_end = area();
    out_end = area();
    again_end = area();
    kinds_end = area();
    flows_end = area();
    lasts_end = area();
}

uint8_t *lend_file(const uint8_t *data, size_t size)
{
    uint8_t *file = file_end - size;
    memcpy(file, data, size);
    return file;
}

void same_file(const uint8_t *data, size_t size)
{
    if (memcmp(file_end - size, data, size) != 0)
        fail("the file changed");
}

uint8_t fill(size_t i, int round) { return (uint8_t)(i * 31 + (round ? 7 : 200)); }

void guard_bytes(uint8_t *slice, size_t length, int round)
{
    for (size_t i = 0; i < length + GUARD; i++)
        slice[-GUARD + (ptrdiff_t)i] = fill(i, round);
}

int kept_bytes(const uint8_t *slice, size_t length, size_t count, int round)
{
    for (size_t i = 0; i < length + GUARD; i++)
        if ((i < GUARD || i >= GUARD + count) && slice[-GUARD + (ptrdiff_t)i] != fill(i, round))
            return 0;
    return 1;
}

void guard_words(int64_t *slice, size_t length)
{
    for (size_t i = 0; i < length + GUARD; i++)
        slice[-GUARD + (ptrdiff_t)i] = ~(int64_t)i;
}

int kept_words(const int64_t *slice, size_t length, size_t count)
{
    for (size_t i = 0; i < length + GUARD; i++)
        if ((i < GUARD || i >= GUARD + count) && slice[-GUARD + (ptrdiff_t)i] != ~(int64_t)i)
            return 0;
    return 1;
}

uint64_t field(const uint8_t *at, int bytes)
{
    uint64_t value = 0;
    for (int i = 0; i < bytes; i++)
        value = value << 8 | at[i];
    return value;
}

size_t put(uint8_t *out, size_t length, int bytes, uint64_t value)
{
    for (int shift = 8 * (bytes - 1); shift >= 0; shift -= 8)
        out[length++] = (uint8_t)(value >> shift);
    return length;
}
