/* The first broken rule of a sheet that the check has refused with 26, in words, as the C program check_sheet prints it. */
/* SPDX-License-Identifier: LicenseRef-Wengeludo */
#ifndef WENGELUDO_BROKEN_RULE_H
#define WENGELUDO_BROKEN_RULE_H

#include <stddef.h>
#include <stdint.h>

/* Writes the words, an empty text if no rule is found, to 160 characters. */
void wengeludo_broken_rule(const uint8_t *plant, size_t plant_length, const uint8_t *sheet, size_t sheet_length, const int64_t *numbers,
                           size_t count, char *words);

#endif
