/* The C header for wasm32 as well: its calls take lengths and hand over counts of 64 bits there too, and its size_t has 32. */
/* SPDX-License-Identifier: LicenseRef-Wengeludo */
#ifndef CROSS_LENGTHS_H
#define CROSS_LENGTHS_H
#include <stddef.h>
#include <stdint.h>
#if SIZE_MAX == UINT64_MAX
#include "wengeludo_balance.h"
#else
#define size_t uint64_t
#include "wengeludo_balance.h"
#undef size_t
#endif
#endif
