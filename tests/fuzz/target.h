/* What the subjects of the fuzz target share: slices between a guard and a page that may not be touched, numbers in bytes, the parts
 * of a plant, and what counts as new. A subject has a file of its own, and target.c says which input goes to which. */
/* SPDX-License-Identifier: LicenseRef-Wengeludo */
#ifndef WENGELUDO_FUZZ_TARGET_H
#define WENGELUDO_FUZZ_TARGET_H

#include <stddef.h>
#include <stdint.h>
#include <string.h>

#include "wengeludo_balance.h"

/* Says what is wrong, and ends the run. */
void fail(const char *what);

/* ---- coverage, in blocks.c */

/* What counts as new beside the archive's basic blocks: places of counters, those of a subject from its own on. */
enum {
    OF_DEGREES = 0,       /* degrees × 3 + verdict */
    OF_KINDS = 128,       /* class × 97 + number of streams */
    OF_RANGES = 600,      /* at the low end + 2 × at the high end */
    OVER_THE_CAP = 604,   /* a cost above what can be written */
    OF_OUTSIDE = 610,     /* whether the outside is marked */
    OF_MARKED = 620,      /* how many places are marked */
    OF_TRANSLATED = 640,  /* the number that is returned */
    OF_BOUGHT = 672,      /* the same */
    OF_VISITED = 704,     /* the same */
    VISITS_AT_CAP = 724,  /* two costs at the cap */
    VISITS_TO_CAP = 725,  /* costs below and at the cap */
    OF_VISITS = 728,      /* how many are listed */
    OF_CHARGED = 832,     /* the number that is returned */
    OF_MISSING = 864,     /* how many cents are missing */
    OF_FLOW = 970,        /* the number that is returned */
    COUNTERS = 1024,
};

void seen(size_t place);
void watch_blocks(void);

/* ---- slices, in slices.c */

enum { GUARD = 64 };

/* The ends of areas: behind each a page that may not be touched. */
extern uint8_t *file_end, *out_end, *again_end, *kinds_end, *flows_end, *lasts_end;

void make_areas(void);

/* An area whose last byte stands before a page that may not be touched; where it ends. */
uint8_t *area(void);

/* A copy of the bytes at the end of the area of files; and that it is still the same. */
uint8_t *lend_file(const uint8_t *data, size_t size);
void same_file(const uint8_t *data, size_t size);

uint8_t fill(size_t i, int round);

/* A slice of bytes, or of words, and the guard before it, filled; and whether all is as it was but its first `count` elements. */
void guard_bytes(uint8_t *slice, size_t length, int round);
int kept_bytes(const uint8_t *slice, size_t length, size_t count, int round);
void guard_words(int64_t *slice, size_t length);
int kept_words(const int64_t *slice, size_t length, size_t count);

uint64_t field(const uint8_t *at, int bytes);
size_t put(uint8_t *out, size_t length, int bytes, uint64_t value);

/* ---- plants, in plants.c */

/* The parts of a plant, as the writer is handed them. */
struct parts {
    uint8_t from[112], to[112], metered[112], ranged[112];
    uint16_t weight[112];
    int32_t reading[112], low[112], high[112];
};

/* How long a stream's record is, by its kind. */
size_t body(uint8_t kind);

/* The parts of a file that the reader takes, and how many streams it has. */
size_t listed(const uint8_t *file, struct parts *p);

/* The plant reader on any file: the number of the sheet call, which comes first; the parts that the file lists, and nothing past them. */
void read_parts(const uint8_t *file, size_t size, uint8_t sheet_number);

/* A file that the reader takes: its parts written again give it back. */
void written_again(const uint8_t *file, size_t size, const struct parts *p, size_t count);
void write_parts(const uint8_t *data, size_t size, size_t length);
size_t repaired(uint8_t *file, size_t size, size_t most);

/* ---- sheets, in sheets.c */

/* The office that calls, its last sheet number, and how many last numbers are lent. */
struct caller { uint8_t office; uint32_t last; size_t lent; };

struct outcome { uint8_t returned; size_t written; uint64_t marked; };

/* A sheet call on slices between a guard and a page; checks what must stay as it was. */
struct outcome sheet_call(const uint8_t *file, size_t size, struct caller c, size_t length, uint8_t *end, int round);

/* The same by office 0 after no sheet; the sheet stands before again_end. */
struct outcome first_sheet(const uint8_t *file, size_t size);

/* Whether the sheet call was refused for what it was lent or who called, before it looked at the file. */
int of_the_call(uint8_t number);

/* The refusals of the sheet reader, in their order, as the header states them. */
uint8_t sheet_fault(const uint8_t *sheet, size_t size, size_t room);
void read_back(const uint8_t *sheet, size_t size, size_t room);
void sheet_fits(uint8_t units, const struct parts *p, size_t count, const uint8_t *sheet, size_t written);
void marks_fit(uint8_t units, const struct parts *p, size_t count, uint64_t marked);

/* ---- the other subjects, each in a file of its name */

void translate(const uint8_t *data, size_t size, size_t length);
size_t repaired_signals(uint8_t *file, size_t size, size_t most, int in_range);
void move_both(const uint8_t *data, size_t size, size_t length);
void buy(const uint8_t *data, size_t size, uint8_t choice);
void survey(const uint8_t *file, size_t size, uint8_t sheet_number);
void visit(const uint8_t *data, size_t size, uint8_t choice);
void charge(const uint8_t *data, size_t size, uint8_t choice);
int64_t *place_numbers(const uint8_t *file, size_t size, uint8_t sheet_number, size_t *count);
void check(const uint8_t *file, size_t size, const uint8_t *sheet, size_t written, const uint8_t *choices);
void check_flow(const uint8_t *data, size_t size, uint8_t choice);

#endif
