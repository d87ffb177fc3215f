/* size_t and NULL from what the compiler itself knows: the kit's clang has no headers. */
/* SPDX-License-Identifier: LicenseRef-Wengeludo */
#ifndef CROSS_STDDEF_H
#define CROSS_STDDEF_H
typedef __SIZE_TYPE__ size_t;
#define NULL ((void *)0)
#endif
