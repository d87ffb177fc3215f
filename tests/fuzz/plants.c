/* Plant files: the parts of a file, the writer on any parts, and files repaired to plants within their limits.
 *
 * Parts, as an input has them: units, count (2), which slice is cut (1) and where (1), then 18 bytes for each stream: from, to,
 * metered, weight (2), reading (4), ranged, low (4), high (4). */
/* SPDX-License-Identifier: LicenseRef-Wengeludo */
#include "target.h"

enum { SLICES = 8, PART_BYTES = 18, HEAD_BYTES = 5, MOST_PARTS = 112 };

size_t body(uint8_t kind) { return kind == 2 ? 9 : kind == 6 ? 17 : 3; }

size_t listed(const uint8_t *file, struct parts *p)
{
    size_t k = 0;
    for (size_t at = 2; file[at] != 4; k++) {
        p->metered[k] = file[at] != 3;
        p->ranged[k] = file[at] == 6;
        p->from[k] = file[at + 1];
        p->to[k] = file[at + 2];
        p->weight[k] = p->metered[k] ? (uint16_t)field(file + at + 3, 2) : 0;
        p->reading[k] = p->metered[k] ? (int32_t)field(file + at + 5, 4) : 0;
        p->low[k] = p->ranged[k] ? (int32_t)field(file + at + 9, 4) : 0;
        p->high[k] = p->ranged[k] ? (int32_t)field(file + at + 13, 4) : 0;
        at += body(file[at]);
    }
    return k;
}

/* What the writer is handed: units, a count, parts, and how long their slices are, in the order of the call. */
struct plant { uint8_t units; size_t count; const struct parts *p; size_t lengths[SLICES]; };

static uint8_t write_call(const struct plant *a, uint8_t *out, size_t length, size_t *written)
{
    const struct parts *p = a->p;
    const size_t *lengths = a->lengths;
    return wengeludo_write_plant(a->units, a->count, p->from, lengths[0], p->to, lengths[1], p->metered, lengths[2], p->weight,
                                 lengths[3], p->reading, lengths[4], p->ranged, lengths[5], p->low, lengths[6], p->high,
                                 lengths[7], out, length, written);
}

void written_again(const uint8_t *file, size_t size, const struct parts *p, size_t count)
{
    uint8_t *out = again_end - WENGELUDO_FILE_SIZE;
    struct plant plant = {.units = file[1], .count = count, .p = p};
    size_t length = 0;
    for (int i = 0; i < SLICES; i++)
        plant.lengths[i] = count;
    memset(out, 0x55, WENGELUDO_FILE_SIZE);
    if (write_call(&plant, out, WENGELUDO_FILE_SIZE, &length) != 0)
        fail("the writer refuses an accepted plant");
    if (length != size || memcmp(out, file, size) != 0)
        fail("the file written again differs");
    for (size_t i = length; i < WENGELUDO_FILE_SIZE; i++)
        if (out[i] != 0x55)
            fail("a byte past the file changed");
    if (count == 0)
        return;
    /* A slice too short by one: refused, nothing written. */
    plant.lengths[(size + file[1]) % SLICES]--;
    memset(out, 0x66, WENGELUDO_FILE_SIZE);
    if (write_call(&plant, out, WENGELUDO_FILE_SIZE, &length) != WENGELUDO_SAME_PLACE || length != 0)
        fail("a stream that is not there is taken");
    for (size_t i = 0; i < WENGELUDO_FILE_SIZE; i++)
        if (out[i] != 0x66)
            fail("a refused writer writes");
}

static uint8_t read_call(const uint8_t *file, size_t size, size_t room, struct parts *p, uint8_t *units, size_t *count)
{
    return wengeludo_read_plant(file, size, units, count, p->from, room, p->to, room, p->metered, room, p->weight, room, p->reading, room,
                                p->ranged, room, p->low, room, p->high, room);
}

void read_parts(const uint8_t *file, size_t size, uint8_t sheet_number)
{
    struct parts found, before;
    uint8_t units = 99;
    size_t count = 99;
    memset(&before, fill(size, 0), sizeof before);
    memset(&found, fill(size, 0), sizeof found);
    if (read_call(file, size, WENGELUDO_MAX_STREAMS - 1, &found, &units, &count) != WENGELUDO_SLICE_TOO_SHORT || units != 0 || count != 0)
        fail("a plant read into slices that are too short");
    units = 99, count = 99;
    uint8_t returned = read_call(file, size, WENGELUDO_MAX_STREAMS, &found, &units, &count);
    if (!of_the_call(sheet_number) && returned != (sheet_number == WENGELUDO_NO_FLOW ? 0 : sheet_number))
        fail("another number than the sheet call's, from the plant reader");
    if (returned == 0) {
        if (units != file[1] || count != listed(file, &before))
            fail("units and streams of a plant that was read");
    } else if (units != 0 || count != 0)
        fail("a refused plant reader counts");
    if (memcmp(&found, &before, sizeof found) != 0)
        fail("the parts of a plant that was read");
}

/* The refusals of the writer, in their order, as the header states them; `there` streams are in all slices. */
static uint8_t write_fault(const struct plant *a, size_t there, size_t length)
{
    const struct parts *p = a->p;
    const int32_t most = WENGELUDO_MAX_RANGE;
    if (length < WENGELUDO_FILE_SIZE)
        return 1;
    if (a->units < 1 || a->units > 32)
        return 6;
    if (a->count > 96)
        return 5;
    for (size_t k = 0; k < a->count; k++) {
        if (k >= there)
            return 8;
        if (p->from[k] > a->units || p->to[k] > a->units)
            return 7;
        if (p->from[k] == p->to[k])
            return 8;
        if (p->metered[k] && (p->weight[k] < 1 || p->weight[k] > 1000))
            return 9;
        if (p->metered[k] && (p->reading[k] < -4000000 || p->reading[k] > 4000000))
            return 10;
        if (p->metered[k] && p->ranged[k] && (p->low[k] > p->high[k] || p->low[k] < -most || p->high[k] > most))
            return 18;
    }
    return 0;
}

/* The parts of an input, and how many streams it has. */
static size_t parts_in(const uint8_t *data, size_t size, struct parts *p)
{
    size_t n = (size - HEAD_BYTES) / PART_BYTES;
    if (n > MOST_PARTS)
        n = MOST_PARTS;
    for (size_t k = 0; k < n; k++) {
        const uint8_t *at = data + HEAD_BYTES + PART_BYTES * k;
        p->from[k] = at[0];
        p->to[k] = at[1];
        p->metered[k] = at[2];
        p->weight[k] = (uint16_t)field(at + 3, 2);
        p->reading[k] = (int32_t)field(at + 5, 4);
        p->ranged[k] = at[9];
        p->low[k] = (int32_t)field(at + 10, 4);
        p->high[k] = (int32_t)field(at + 14, 4);
    }
    return n;
}

/* The writer on any parts: the number returned, what stays as it was, and that the sheet call takes the file. */
void write_parts(const uint8_t *data, size_t size, size_t length)
{
    if (size < HEAD_BYTES)
        return;
    struct parts p;
    size_t n = parts_in(data, size, &p), there = n, written = SIZE_MAX;
    struct plant plant = {.units = data[0], .count = field(data + 1, 2), .p = &p};
    for (int i = 0; i < SLICES; i++)
        plant.lengths[i] = n;
    if (data[3] < SLICES && data[4] < n)
        there = plant.lengths[data[3]] = data[4];
    uint8_t *out = out_end - length;
    guard_bytes(out, length, 0);
    uint8_t returned = write_call(&plant, out, length, &written);
    if (returned != write_fault(&plant, there, length))
        fail("the writer returns another number");
    if (returned != 0 ? written != 0 : written < 4 || written > WENGELUDO_FILE_SIZE)
        fail("the writer counts wrong");
    if (!kept_bytes(out, length, written, 0))
        fail("the writer changes a byte that is not its own");
    if (returned != 0)
        return;
    uint8_t number = first_sheet(out, written).returned;
    if (number != 0 && number != WENGELUDO_NO_FLOW)
        fail("the sheet call refuses a file of the writer");
}

/* A number within a limit, either sign. */
static int32_t limited(const uint8_t *at, int32_t most) { return (int32_t)field(at, 4) % (most + 1); }

/* Repairs a file to a plant within its limits: the bytes that are there, taken modulo what is allowed. */
size_t repaired(uint8_t *file, size_t size, size_t most)
{
    uint8_t plant[WENGELUDO_FILE_SIZE];
    uint8_t units = size > 1 ? (uint8_t)(1 + (file[1] + 31) % 32) : 1;
    size_t length = 0, count = 0;
    plant[length++] = 1;
    plant[length++] = units;
    for (size_t at = 2; at + 3 <= size && count < 96 && !(file[at] == 4 && at + 2 >= size); count++) {
        int ranged = file[at] == 6 && at + 17 <= size, metered = ranged || (file[at] != 3 && at + 9 <= size);
        uint8_t kind = ranged ? 6 : metered ? 2 : 3;
        uint8_t from = file[at + 1] % (units + 1), to = file[at + 2] % (units + 1);
        plant[length++] = kind;
        plant[length++] = from;
        plant[length++] = to != from ? to : (uint8_t)((from + 1) % (units + 1));
        if (metered) {
            length = put(plant, length, 2, (uint32_t)(1 + (field(file + at + 3, 2) + 999) % 1000));
            length = put(plant, length, 4, (uint32_t)limited(file + at + 5, WENGELUDO_MAX_READING));
        }
        if (ranged) {
            int32_t a = limited(file + at + 9, WENGELUDO_MAX_RANGE), b = limited(file + at + 13, WENGELUDO_MAX_RANGE);
            length = put(plant, length, 4, (uint32_t)(a < b ? a : b));
            length = put(plant, length, 4, (uint32_t)(a < b ? b : a));
        }
        at += body(kind);
    }
    plant[length++] = 4;
    plant[length++] = (uint8_t)count;
    if (length > most)
        return size;
    memcpy(file, plant, length);
    return length;
}
