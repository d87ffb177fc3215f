/* The words of programs/rules.h as a function. */
/* SPDX-License-Identifier: LicenseRef-Wengeludo */
#include "broken_rule.h"

#include "rules.h"

void wengeludo_broken_rule(const uint8_t *plant, size_t plant_length, const uint8_t *sheet, size_t sheet_length, const int64_t *numbers,
                           size_t count, char *words)
{
    if (!broken_rule(plant, plant_length, sheet, sheet_length, numbers, count, words))
        words[0] = '\0';
}
