/* A fuzz target over the calls, for libFuzzer: which input goes to which subject, and how an input is changed.
 *
 * An input: 1 byte that chooses the slice's length and the office, 1 byte that chooses the last sheet number and how many of them
 * are lent, then a plant file. Or the second byte is one of those below, and the rest is for another call, the first byte choosing
 * slices, prices or rates. Each sheet that is drawn is read back in as well, and checked with the archive's own numbers of the
 * places, as it is and with a bit of it, or a number, changed. Each slice ends at a page that may not be touched, and bytes stand
 * before it that may not change. Three of four changed inputs are repaired to a plant within its limits, so that the search gets
 * past the reader. What counts as new: blocks.c, and the counters of target.h.
 */
/* SPDX-License-Identifier: LicenseRef-Wengeludo */
#include <stdio.h>
#include <stdlib.h>

#include "target.h"

enum {
    OF_FLOWS = 242,        /* a flow with wide weights: flows.c says how it is laid out */
    OF_CHARGES = 243,      /* a plant file for steam charges */
    OF_LISTS = 244,        /* a plant file for meters worth a visit */
    OF_PURCHASES = 245,    /* a plant file for meters to buy */
    OF_MOVES = 246,        /* a plant file to be moved both ways */
    OF_TRANSMITTERS = 247, /* a transmitter file */
    OF_KEPT_SHEETS = 248,  /* a kept sheet */
    OF_PARTS = 249,        /* parts for the writer: plants.c says how they are laid out */
    LONGEST = 2100,
};

/* How many inputs each subject had. */
static unsigned long of_sheets, of_others[256];

static void tell_subjects(void)
{
    fprintf(stderr, "fuzz target: inputs: %lu sheets, %lu charges, %lu lists of visits, %lu purchases, %lu moves, %lu transmitter files, "
                    "%lu kept sheets, %lu parts, %lu flows\n",
            of_sheets, of_others[OF_CHARGES], of_others[OF_LISTS], of_others[OF_PURCHASES], of_others[OF_MOVES],
            of_others[OF_TRANSMITTERS], of_others[OF_KEPT_SHEETS], of_others[OF_PARTS], of_others[OF_FLOWS]);
}

int LLVMFuzzerInitialize(int *count, char ***words)
{
    (void)count;
    (void)words;
    make_areas();
    watch_blocks();
    atexit(tell_subjects);
    return 0;
}

size_t LLVMFuzzerMutate(uint8_t *data, size_t size, size_t most);

size_t LLVMFuzzerCustomMutator(uint8_t *data, size_t size, size_t most, unsigned seed)
{
    size = LLVMFuzzerMutate(data, size, most);
    if (seed % 4 == 0 || size <= 2 || most <= 2)
        return size;
    if (data[1] == OF_TRANSMITTERS)
        return 2 + repaired_signals(data + 2, size - 2, most - 2, seed % 4 == 1);
    if (data[1] == OF_PARTS || data[1] == OF_KEPT_SHEETS || data[1] == OF_FLOWS)
        return size;
    return 2 + repaired(data + 2, size - 2, most - 2);
}

/* A slice as long as it must be, somewhat longer, or shorter. */
static size_t slice_length(uint8_t choice, size_t least)
{
    return choice < 128 ? least : choice < 192 ? least + choice - 128 : (size_t)(255 - choice) * least / 62;
}

/* A kept sheet of any bytes, read back in. */
static void read_kept(const uint8_t *data, size_t size, uint8_t choice)
{
    uint8_t *sheet = lend_file(data, size);
    read_back(sheet, size, choice < 128 ? WENGELUDO_MAX_STREAMS : choice - 128u);
    same_file(data, size);
}

/* The sheet call, twice, and what goes with it: the survey, numbers of the places, the writer, the reader, the check. */
static void balance(const uint8_t *data, size_t size)
{
    size_t length = slice_length(data[0], WENGELUDO_SHEET_SIZE), numbered;
    struct caller caller = {
        .office = data[0] % 9,
        .last = data[1] < 250 ? data[1] : UINT32_MAX - (255 - data[1]),
        .lent = data[1] == 200 ? data[0] % WENGELUDO_OFFICES : WENGELUDO_OFFICES + (data[1] % 4 == 3 ? data[1] % 3u : 0),
    };
    size -= 2;
    uint8_t *file = lend_file(data + 2, size), *sheet = out_end - length;
    struct outcome a = sheet_call(file, size, caller, length, out_end, 0);
    struct outcome b = sheet_call(file, size, caller, length, again_end, 1);
    if (a.returned != b.returned || a.written != b.written || a.marked != b.marked)
        fail("two calls differ");
    if (memcmp(sheet, again_end - length, a.written) != 0)
        fail("two sheets differ");
    same_file(data + 2, size);
    survey(file, size, a.returned);
    read_parts(file, size, a.returned);
    place_numbers(file, size, a.returned, &numbered);
    if (a.returned != 0 && a.returned != WENGELUDO_NO_FLOW)
        return;
    struct parts p;
    size_t count = listed(file, &p);
    written_again(file, size, &p, count);
    if (a.returned != 0) {
        marks_fit(file[1], &p, count, a.marked);
        return;
    }
    sheet_fits(file[1], &p, count, sheet, a.written);
    read_back(sheet, a.written, WENGELUDO_MAX_STREAMS);
    check(file, size, sheet, a.written, data);
}

int LLVMFuzzerTestOneInput(const uint8_t *data, size_t size)
{
    if (size < 2 || size > 2 + LONGEST)
        return 0;
    const uint8_t choice = data[0], subject = data[1], *rest = data + 2;
    size_t length = slice_length(choice, WENGELUDO_FILE_SIZE);
    of_others[subject]++;
    if (subject == OF_FLOWS)
        check_flow(rest, size - 2, choice);
    else if (subject == OF_CHARGES)
        charge(rest, size - 2, choice);
    else if (subject == OF_LISTS)
        visit(rest, size - 2, choice);
    else if (subject == OF_PURCHASES)
        buy(rest, size - 2, choice);
    else if (subject == OF_MOVES)
        move_both(rest, size - 2, length);
    else if (subject == OF_TRANSMITTERS)
        translate(rest, size - 2, length);
    else if (subject == OF_KEPT_SHEETS)
        read_kept(rest, size - 2, choice);
    else if (subject == OF_PARTS)
        write_parts(rest, size - 2, length);
    else {
        of_sheets++;
        balance(data, size);
    }
    return 0;
}
