/* What a wasm32 module without a C library needs of one: moving and filling memory, and a product of 128 bits. */
/* SPDX-License-Identifier: LicenseRef-Wengeludo */
#include <stddef.h>
#include <stdint.h>

void *memmove(void *to, const void *from, size_t count)
{
    uint8_t *t = to;
    const uint8_t *f = from;
    if (t < f)
        for (size_t i = 0; i < count; i++)
            t[i] = f[i];
    else
        for (size_t i = count; i > 0; i--)
            t[i - 1] = f[i - 1];
    return to;
}

void *memcpy(void *restrict to, const void *restrict from, size_t count)
{
    return memmove(to, from, count);
}

void *memset(void *at, int byte, size_t count)
{
    uint8_t *a = at;
    for (size_t i = 0; i < count; i++)
        a[i] = (uint8_t)byte;
    return at;
}

#ifdef __wasm__
static uint64_t low_half(uint64_t x) { return x & UINT32_MAX; }
static uint64_t high_half(uint64_t x) { return x >> 32; }

/* a * b, its low 128 bits, from halves of 32. */
__int128 __multi3(__int128 a, __int128 b)
{
    const uint64_t al = (uint64_t)a, bl = (uint64_t)b, ah = (uint64_t)(a >> 64), bh = (uint64_t)(b >> 64);
    const uint64_t p = low_half(al) * low_half(bl), q = high_half(al) * low_half(bl);
    const uint64_t r = low_half(al) * high_half(bl), s = high_half(al) * high_half(bl);
    const uint64_t middle = high_half(p) + low_half(q) + low_half(r);
    const uint64_t top = s + high_half(q) + high_half(r) + high_half(middle);
    const uint64_t high = top + ah * bl + al * bh;
    return (__int128)((unsigned __int128)high << 64 | (middle << 32 | low_half(p)));
}
#endif
