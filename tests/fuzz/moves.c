/* Moves: a plant file to the ranged form and home again, against its records rewritten where they stand. */
/* SPDX-License-Identifier: LicenseRef-Wengeludo */
#include "target.h"

/* The records of a plant file that is read, rewritten where they stand: to the ranged form, or home; 0 bytes where a range is
 * narrower. */
static size_t rewritten(const uint8_t *file, size_t size, int forth, uint8_t *out)
{
    static const uint8_t widest[8] = {0x88, 0xCA, 0x6C, 0x00, 0x77, 0x35, 0x94, 0x00};
    size_t length = 0;
    for (size_t at = 0; at < size;) {
        size_t whole = file[at] == 1 || file[at] == 4 ? 2 : body(file[at]);
        int widen = forth && file[at] == 2, bare = !forth && file[at] == 6;
        if (bare && memcmp(file + at + 9, widest, 8) != 0)
            return 0;
        memcpy(out + length, file + at, bare ? 9 : whole);
        out[length] = widen ? 6 : bare ? 2 : file[at];
        length += bare ? 9 : whole;
        if (widen) {
            memcpy(out + length, widest, 8);
            length += 8;
        }
        at += whole;
    }
    return length;
}

/* A move of a file that is read where `reads` is 0, and else refused so: number, count and every byte of the slice. */
static size_t move(const uint8_t *file, size_t size, size_t length, uint8_t reads, int forth, uint8_t *kept)
{
    uint8_t *out = out_end - length;
    memset(out, 0x5A, length);
    size_t written = 77, most = 0;
    if (reads == 0)
        most = rewritten(file, size, forth, kept);
    uint8_t told = length < WENGELUDO_FILE_SIZE ? WENGELUDO_SLICE_TOO_SHORT : reads != 0 ? reads : most == 0 ? WENGELUDO_NARROWER : 0;
    uint8_t returned = (forth ? wengeludo_to_ranged : wengeludo_from_ranged)(file, size, out, length, &written);
    if (returned != told)
        fail("a move returned another number");
    if (told != 0)
        most = 0;
    if (written != most || memcmp(out, kept, most) != 0)
        fail("a move wrote another file");
    for (size_t i = most; i < length; i++)
        if (out[i] != 0x5A)
            fail("a move changed the slice past its file");
    return most;
}

/* Both moves of a plant file, and for one without ranges the trip and the sheet in the ranged form. */
void move_both(const uint8_t *data, size_t size, size_t length)
{
    static uint8_t there[WENGELUDO_FILE_SIZE], home[WENGELUDO_FILE_SIZE], sheet[2][WENGELUDO_SHEET_SIZE];
    uint8_t *file = lend_file(data, size);
    uint32_t lasts[2][WENGELUDO_OFFICES] = {{0}, {0}};
    size_t written[2];
    uint64_t marked[2];
    uint8_t returned =
        wengeludo_balance_plant(file, size, 0, lasts[0], WENGELUDO_OFFICES, sheet[0], sizeof sheet[0], &written[0], &marked[0]);
    uint8_t reads = returned == WENGELUDO_NO_FLOW ? 0 : returned;
    size_t forth = move(file, size, length, reads, 1, there);
    move(file, size, length, reads, 0, home);
    same_file(data, size);
    if (forth == 0)
        return;
    for (size_t at = 2; file[at] != 4; at += body(file[at]))
        if (file[at] == 6)
            return;
    if (move(there, forth, WENGELUDO_FILE_SIZE, 0, 0, home) != size || memcmp(home, file, size) != 0)
        fail("the trip changed the file");
    if (wengeludo_balance_plant(there, forth, 0, lasts[1], WENGELUDO_OFFICES, sheet[1], sizeof sheet[1], &written[1], &marked[1])
            != returned
        || written[0] != written[1] || memcmp(lasts[0], lasts[1], sizeof lasts[0]) != 0 || marked[0] != marked[1]
        || memcmp(sheet[0], sheet[1], written[0]) != 0)
        fail("another sheet in the ranged form");
}
