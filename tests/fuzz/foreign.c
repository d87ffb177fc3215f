/* Sheets drawn up elsewhere: numbers of the places, and the check against its rules in exact numbers (programs/rules.h). */
/* SPDX-License-Identifier: LicenseRef-Wengeludo */
#include "target.h"
#include "../../programs/rules.h"

/* Numbers of the places of a file, of which the sheet call returned this number, on a slice between a guard and a page: what is
 * returned, what stays as it was. */
int64_t *place_numbers(const uint8_t *file, size_t size, uint8_t sheet_number, size_t *count)
{
    int64_t *numbers = (int64_t *)(void *)flows_end - WENGELUDO_MAX_PLACES;
    for (int u = -(int)GUARD; u < WENGELUDO_MAX_PLACES; u++)
        numbers[u] = 1000 * u - 7;
    *count = 99;
    uint8_t returned = wengeludo_place_numbers(file, size, numbers, WENGELUDO_MAX_PLACES, count);
    if (!of_the_call(sheet_number) && returned != sheet_number)
        fail("another number than the sheet call's, with numbers of the places");
    if (*count != (returned == 0 ? (size_t)file[1] + 1 : 0))
        fail("as many numbers as there are not places");
    for (int u = -(int)GUARD; u < WENGELUDO_MAX_PLACES; u++)
        if ((u < 0 || u >= (int)*count) && numbers[u] != 1000 * u - 7)
            fail("an element beside the numbers changed");
    return numbers;
}

/* The sheet of a file passes with these numbers; with a byte of the sheet changed, or a number, the check finds what the rules say. */
void check(const uint8_t *file, size_t size, const uint8_t *sheet, size_t written, const uint8_t *choices)
{
    struct shown ours, theirs;
    char words[160];
    size_t count;
    int64_t *numbers = place_numbers(file, size, 0, &count);
    if (wengeludo_check_sheet(file, size, sheet, written, numbers, count) != 0)
        fail("a sheet of ours does not pass");
    read_shown(sheet, written, &ours);
    uint8_t copy[WENGELUDO_SHEET_SIZE];
    memcpy(copy, sheet, written);
    if (choices[0] & 1)
        copy[(choices[0] >> 1) * written / 128] ^= (uint8_t)(1 << (choices[1] & 7));
    else
        numbers[choices[1] % count] = (int64_t)((uint64_t)numbers[choices[1] % count] + ((uint64_t)choices[0] << (choices[1] & 63)));
    uint8_t due = sheet_fault(copy, written, WENGELUDO_MAX_STREAMS);
    if (due == 0) {
        read_shown(copy, written, &theirs);
        due = first_broken(file, &theirs, &ours, numbers, count, words, sizeof words) ? WENGELUDO_RULE_BROKEN : WENGELUDO_DONE;
    }
    if (wengeludo_check_sheet(file, size, copy, written, numbers, count) != due)
        fail("another number than the rules give");
    if (wengeludo_check_sheet(file, size, sheet, written, numbers, count - 1) != WENGELUDO_RULE_BROKEN)
        fail("a number less passes");
}
