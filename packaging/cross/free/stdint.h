/* The numbers of a fixed width from what the compiler itself knows: the kit's clang has no headers. */
/* SPDX-License-Identifier: LicenseRef-Wengeludo */
#ifndef CROSS_STDINT_H
#define CROSS_STDINT_H
typedef __UINT8_TYPE__ uint8_t;
typedef __UINT16_TYPE__ uint16_t;
typedef __UINT32_TYPE__ uint32_t;
typedef __UINT64_TYPE__ uint64_t;
typedef __INT32_TYPE__ int32_t;
typedef __INT64_TYPE__ int64_t;
#define UINT32_MAX 0xFFFFFFFFu
#define UINT64_MAX 0xFFFFFFFFFFFFFFFFull
#define SIZE_MAX __SIZE_MAX__
#define INT64_C(number) __INT64_C(number)
#endif
