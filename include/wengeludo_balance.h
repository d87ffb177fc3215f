/* Steam and condensate balance sheets: the calls of libwengeludo.
 *
 * `bash install.sh PREFIX` puts the library where a compiler finds it (-lwengeludo), for x86-64 Linux; `bash packaging/archive.sh`
 * proves it and writes target/staticlib/libwengeludo.a, which is the same archive, to be linked as it is. For 64-bit Linux on ARM and
 * RISC-V packaging/cross/build.sh compiles the module of that proof. Lengths and counts have 64 bits: size_t has them on all three. In
 * WebAssembly of 32 bits size_t has fewer and the calls take 64-bit numbers all the same: see packaging/cross/lengths.h.
 * It needs nothing but the C library (memcpy, memset). The calls keep no state, allocate nothing, take less than
 * 72 KB of stack, and may run in several threads at once on memory of their own. On x86-64 they take at most 43,384 bytes of
 * stack, which is charges; balance_plant takes 39,512 and check_flow 11,664 (./dev stack has each).
 *
 * What holds of every pointer here, and what no call can check:
 *   - it points to as many elements as the length beside it says (a pointer without a length: to one, never NULL);
 *   - what a call writes overlaps nothing else that the same call is handed;
 *   - it is aligned as its element type is;
 *   - the floating-point environment is C's own at the start of a program: rounding to nearest, no trap unmasked. Under another
 *     rounding the translator gives some deviations another weight, and every sheet is the same; with a trap unmasked a transmitter
 *     file of 19 bytes ends the process (SIGFPE).
 * So input and output are two slices: nothing is promised of a call in place. C99 or later, C++11 or later. There are no unwind
 * tables: nothing is thrown through a call, and a backtrace from inside one does not reach the caller.
 * Lengths count elements. A slice may be longer than is needed. A slice of length 0 may be NULL: it is never looked at.
 *
 * What each call does is proved against definitions that docs/PROMISES.md lists, call by call and file by file: result, counts
 * and every byte of a slice follow from what is handed in, but for the choices that two calls have, which places are marked and
 * which numbers places get.
 */
/* SPDX-License-Identifier: LicenseRef-Wengeludo */
#ifndef WENGELUDO_BALANCE_H
#define WENGELUDO_BALANCE_H

#include <stddef.h>
#include <stdint.h>

#if SIZE_MAX < UINT64_MAX && !defined(size_t)
#error "wengeludo: lengths have 64 bits, and size_t has fewer here; for wasm32 include packaging/cross/lengths.h"
#endif

#ifdef __cplusplus
extern "C" {
#endif

/* The version of this header. What may change between versions: CHANGELOG.md. */
#define WENGELUDO_VERSION_MAJOR 1
#define WENGELUDO_VERSION_MINOR 1
#define WENGELUDO_VERSION_PATCH 0
#define WENGELUDO_VERSION (10000 * WENGELUDO_VERSION_MAJOR + 100 * WENGELUDO_VERSION_MINOR + WENGELUDO_VERSION_PATCH)

/* The version of the library, a number like WENGELUDO_VERSION: 10000 is 1.0.0. A program may go on where its ten thousands are
 * those of the header and the rest is no less.
 */
uint32_t wengeludo_version(void);

/* The least sheet slice and the least slice for a plant file; the longest plant file. */
#define WENGELUDO_SHEET_SIZE 880
#define WENGELUDO_FILE_SIZE 1636

/* The offices that draw sheets, 0 to 7; the least slice of last sheet numbers. */
#define WENGELUDO_OFFICES 8

/* The longest transmitter file. */
#define WENGELUDO_TRANSMITTER_SIZE 1444

/* The most units and the most streams of a plant; the greatest weight, reading and end of a range. */
#define WENGELUDO_MAX_UNITS 32
#define WENGELUDO_MAX_STREAMS 96
#define WENGELUDO_MAX_WEIGHT 1000
#define WENGELUDO_MAX_READING 4000000
#define WENGELUDO_MAX_RANGE 2000000000

/* The greatest price of a meter. */
#define WENGELUDO_MAX_PRICE 1000000

/* The greatest rate of a stream to the outside, in ten-thousandths of a cent per kg. */
#define WENGELUDO_MAX_RATE 10000

/* The most streams of a plant whose layouts are surveyed; the least slice for their counts. */
#define WENGELUDO_MAX_SURVEYED 12
#define WENGELUDO_SURVEY_SIZE 13

/* The most places of a plant, the outside among them; the least slice for their numbers, and the greatest number in size. */
#define WENGELUDO_MAX_PLACES 33
#define WENGELUDO_MAX_NUMBER INT64_C(1000000000000000000)

/* For the check of a flow alone: the greatest weight, and in size the greatest reading, flow and number of a place. */
#define WENGELUDO_MAX_WIDE_WEIGHT UINT64_C(1099511627776)
#define WENGELUDO_MAX_WIDE_READING INT64_C(1099511627776)
#define WENGELUDO_MAX_WIDE_FLOW INT64_C(36028797018963968)
#define WENGELUDO_MAX_WIDE_NUMBER INT64_C(2305843009213693952)

/* What the calls return: 0, or the number of a refusal. */
enum {
    /* refusals: enum, from tools/refusals.tsv */
    WENGELUDO_DONE = 0,
    WENGELUDO_SLICE_TOO_SHORT = 1,     /* a slice is too short: under 880 bytes for a sheet, 8 numbers for the offices, 1,636
                                          bytes for a plant file, 96 elements for the plant reader, the sheet reader and lists
                                          of streams, 13 for the survey, 33 for the numbers of the places; for the check of a
                                          flow, fewer elements than streams, or numbers than places */
    WENGELUDO_NO_SHEET_NUMBER = 2,     /* the calling office's last sheet number is 4,294,967,295 */
    WENGELUDO_FILE_ENDS = 3,           /* bytes end where a record is due or inside a body */
    WENGELUDO_KIND = 4,                /* kind not allowed at this place */
    WENGELUDO_TOO_MANY_STREAMS = 5,    /* a 97th stream; for the plant writer and the check of a flow, a count over 96 */
    WENGELUDO_UNITS = 6,               /* the number of units, n, is 0 or over 32 */
    WENGELUDO_PLACE = 7,               /* from or to above n */
    WENGELUDO_SAME_PLACE = 8,          /* from equals to */
    WENGELUDO_WEIGHT = 9,              /* weight 0 or over 1,000; for the check of a flow, over 1,099,511,627,776 */
    WENGELUDO_READING = 10,            /* reading outside -4,000,000 to 4,000,000; for the check of a flow, outside
                                          -1,099,511,627,776 to 1,099,511,627,776 */
    WENGELUDO_END_COUNT = 11,          /* end count differs from the streams read */
    WENGELUDO_AFTER_END = 12,          /* bytes after the end record */
    WENGELUDO_SHEET_RECORD = 13,       /* in a sheet, a record is missing, cut short, a 97th or of a wrong kind */
    WENGELUDO_SHEET_TOTAL = 14,        /* in a sheet, a field of the total is not allowed: an office over 7, number 0, degrees
                                          over 32 or a verdict that does not fit */
    WENGELUDO_AFTER_TOTAL = 15,        /* in a sheet, bytes after the total */
    WENGELUDO_VALUE = 16,              /* a transmitter's value is not finite */
    WENGELUDO_DEVIATION = 17,          /* a transmitter's deviation is no finite number above 0 */
    WENGELUDO_RANGE = 18,              /* low above high, or either outside -2,000,000,000 to 2,000,000,000; for the check of a
                                          flow, low above high */
    WENGELUDO_NO_FLOW = 19,            /* no balanced flow lies within all ranges */
    WENGELUDO_NARROWER = 20,           /* moving home, a range is narrower than -2,000,000,000 to 2,000,000,000 */
    WENGELUDO_PRICES = 21,             /* prices are not one for each unmetered stream, or one is 0 or over 1,000,000 */
    WENGELUDO_NO_OFFICE = 22,          /* the office is above 7 */
    WENGELUDO_TOO_MANY_TO_SURVEY = 23, /* more than the 12 streams of which layouts are surveyed */
    WENGELUDO_RATES = 24,              /* rates are not one for each stream to the outside, or one is over 10,000 */
    WENGELUDO_CHARGE_WITHHELD = 25,    /* a stream to the outside is withheld, whatever its rate */
    WENGELUDO_RULE_BROKEN = 26,        /* a sheet or a flow that is checked breaks a rule, a number of a place is missing,
                                          extra or past its limit, or the plant has no sheet */
    /* refusals: end of enum */
};

/* What a number says, as a sentence without a full stop; also for 0, and for a number that this header does not know. */
/* refusals: texts, from tools/refusals.tsv */
static inline const char *wengeludo_refusal_text(uint8_t number)
{
    switch (number) {
    case WENGELUDO_DONE:
        return "done";
    case WENGELUDO_SLICE_TOO_SHORT:
        return "a slice is too short: under 880 bytes for a sheet, 8 numbers for the offices, 1,636 bytes for a plant file, 96 "
               "elements for the plant reader, the sheet reader and lists of streams, 13 for the survey, 33 for the numbers of "
               "the places; for the check of a flow, fewer elements than streams, or numbers than places";
    case WENGELUDO_NO_SHEET_NUMBER:
        return "the calling office's last sheet number is 4,294,967,295";
    case WENGELUDO_FILE_ENDS:
        return "bytes end where a record is due or inside a body";
    case WENGELUDO_KIND:
        return "kind not allowed at this place";
    case WENGELUDO_TOO_MANY_STREAMS:
        return "a 97th stream; for the plant writer and the check of a flow, a count over 96";
    case WENGELUDO_UNITS:
        return "the number of units, n, is 0 or over 32";
    case WENGELUDO_PLACE:
        return "from or to above n";
    case WENGELUDO_SAME_PLACE:
        return "from equals to";
    case WENGELUDO_WEIGHT:
        return "weight 0 or over 1,000; for the check of a flow, over 1,099,511,627,776";
    case WENGELUDO_READING:
        return "reading outside -4,000,000 to 4,000,000; for the check of a flow, outside -1,099,511,627,776 to "
               "1,099,511,627,776";
    case WENGELUDO_END_COUNT:
        return "end count differs from the streams read";
    case WENGELUDO_AFTER_END:
        return "bytes after the end record";
    case WENGELUDO_SHEET_RECORD:
        return "in a sheet, a record is missing, cut short, a 97th or of a wrong kind";
    case WENGELUDO_SHEET_TOTAL:
        return "in a sheet, a field of the total is not allowed: an office over 7, number 0, degrees over 32 or a verdict that "
               "does not fit";
    case WENGELUDO_AFTER_TOTAL:
        return "in a sheet, bytes after the total";
    case WENGELUDO_VALUE:
        return "a transmitter's value is not finite";
    case WENGELUDO_DEVIATION:
        return "a transmitter's deviation is no finite number above 0";
    case WENGELUDO_RANGE:
        return "low above high, or either outside -2,000,000,000 to 2,000,000,000; for the check of a flow, low above high";
    case WENGELUDO_NO_FLOW:
        return "no balanced flow lies within all ranges";
    case WENGELUDO_NARROWER:
        return "moving home, a range is narrower than -2,000,000,000 to 2,000,000,000";
    case WENGELUDO_PRICES:
        return "prices are not one for each unmetered stream, or one is 0 or over 1,000,000";
    case WENGELUDO_NO_OFFICE:
        return "the office is above 7";
    case WENGELUDO_TOO_MANY_TO_SURVEY:
        return "more than the 12 streams of which layouts are surveyed";
    case WENGELUDO_RATES:
        return "rates are not one for each stream to the outside, or one is over 10,000";
    case WENGELUDO_CHARGE_WITHHELD:
        return "a stream to the outside is withheld, whatever its rate";
    case WENGELUDO_RULE_BROKEN:
        return "a sheet or a flow that is checked breaks a rule, a number of a place is missing, extra or past its limit, or "
               "the plant has no sheet";
    default:
        return "a number that this version does not know";
    }
}
/* refusals: end of texts */

/* The kinds of record on a sheet. */
enum {
    WENGELUDO_ADJUSTED = 0x11, /* then the flow: 8 bytes, two's complement, high byte first */
    WENGELUDO_AS_READ = 0x12,  /* the same */
    WENGELUDO_GIVEN = 0x13,    /* the same */
    WENGELUDO_WITHHELD = 0x14, /* no body */
    WENGELUDO_TOTAL = 0x1E,    /* office (1), sheet number (4), cost (8), degrees (1), verdict (1) */
    WENGELUDO_PLAIN = 0x1F     /* the same without the office, on sheets drawn before there were offices; none is drawn any more */
};

/* The verdicts of a sheet's total. */
enum {
    WENGELUDO_PASS = 0, /* the cost is at most the critical value */
    WENGELUDO_FAIL = 1, /* it is above it by more than a quarter of the weights of the A streams: in fractions too no flow passes */
    WENGELUDO_NONE = 2, /* there are no degrees to test */
    WENGELUDO_CLOSE = 3 /* it is above it by at most that: rounding to whole kilograms alone may have taken it there */
};

/* The sheet call: balances a plant file and writes its sheet, drawn for an office under its next number.
 *
 * Reads   the file's file_length bytes, the office, 0 to 7, and the first eight of `lasts`: lasts[k] is the last sheet number
 *         that office k used, 0 before its first sheet. (Who had one last number before there were offices hands it over as
 *         that of office 0, with seven zeros: uint32_t lasts[WENGELUDO_OFFICES] = {last}.)
 * Returns 0, or one of 1 to 12, 18, 19 or 22. The order: 1, 22, 2, then the file's records one after the other (18 after
 *         10), then 19. 2 looks at the calling office's number alone.
 *         1:  `sheet` has fewer than 880 bytes, or `lasts` fewer than eight numbers.
 * Writes, where it returns 0:
 *         the sheet at the front of `sheet` (at most 880 bytes: a record for each stream in file order, then
 *         the total); the bytes of the slice past the total keep their values;
 *         *written: how many bytes the sheet has; lasts[office]: one higher, the number on this sheet; *marked: 0.
 * Writes, where it returns another number:
 *         *written: 0; *marked: 0, or where it returns 19 the marked places, bit u for place u. Nothing else: all bytes
 *         of `sheet` and all numbers of `lasts` are as they were.
 * No call alters another office's last number, nor any number past the eighth. What *written and *marked were before the call
 * makes no difference.
 *
 * The marked places must take in more than they can let out: every stream across their edge has a range, and the lows
 * of those in sum to more than the highs of those out. Any such places will do; the choice is the call's. Place 0, the
 * outside, may be among them; no place above n is. A cost above 18,446,744,073,709,551,615 is written as that number.
 */
uint8_t wengeludo_balance_plant(const uint8_t *file, size_t file_length,
                                uint8_t office,
                                uint32_t *lasts, size_t lasts_length,
                                uint8_t *sheet, size_t sheet_length,
                                size_t *written, uint64_t *marked);

/* The plant writer: writes a plant file from a plant's parts.
 *
 * Reads   units (n), count (how many streams), and of each of the eight slices at most its first 96 elements.
 *         Stream k, counted from 1, stands at index k - 1 of each slice: from and to (0 is the outside),
 *         metered (0: unmetered, any other number: metered), weight, reading, ranged (0: no range, any other number:
 *         a range), low, high. Elements past the count make no difference, nor do weight, reading and range of an
 *         unmetered stream, nor low and high where there is no range.
 *         A stream among the first `count` that one of the eight slices is too short to hold is taken as empty:
 *         from 0 to 0. So the call returns 8 when that stream's turn comes, or earlier the number of an earlier
 *         fault. No file is ever written from slices that are too short.
 * Returns 0, or 1, 5, 6, 7, 8, 9, 10 or 18. The order: 1, 6, 5, then stream after stream, in each 7 to 10, then 18.
 * Writes, where it returns 0:
 *         the file at the front of `file` (at most 1,636 bytes); the bytes past it keep their values;
 *         *written: how many bytes the file has.
 * Writes, where it returns another number:
 *         *written: 0, and nothing else. All bytes of `file` are as they were.
 * What *written was before the call makes no difference.
 */
uint8_t wengeludo_write_plant(uint8_t units, size_t count,
                              const uint8_t *from, size_t from_length,
                              const uint8_t *to, size_t to_length,
                              const uint8_t *metered, size_t metered_length,
                              const uint16_t *weight, size_t weight_length,
                              const int32_t *reading, size_t reading_length,
                              const uint8_t *ranged, size_t ranged_length,
                              const int32_t *low, size_t low_length,
                              const int32_t *high, size_t high_length,
                              uint8_t *file, size_t file_length,
                              size_t *written);

/* The plant reader: reads a plant file into its parts, as the plant writer takes them.
 *
 * Reads   the file's file_length bytes.
 * Returns 0, or one of 1, 3 to 12, 18. The order: 1, then the file's records as in the sheet call (18 after 10).
 *         1:  one of the eight slices has fewer than 96 elements, however many streams the file lists.
 * Writes, where it returns 0:
 *         *units: n; *count: how many streams there are; at index k - 1 of each of the eight slices the part of stream k, counted
 *         from 1: from and to, metered (1, or 0 for an unmetered stream), weight and reading (both 0 for an unmetered stream),
 *         ranged (1, or 0 for a stream without a range), low and high (both 0 without a range); the elements past the last stream
 *         keep their values.
 * Writes, where it returns another number:
 *         0 to *units and *count, and nothing else. All elements of the eight slices are as they were.
 * What the two numbers were before the call makes no difference.
 *
 * The plant writer gives the file back, byte for byte, from what was read; and what the plant writer wrote is read as the parts that
 * it was written from, an unmetered stream's weight, reading and range being 0 there, and low and high where there is no range.
 */
uint8_t wengeludo_read_plant(const uint8_t *file, size_t file_length,
                             uint8_t *units, size_t *count,
                             uint8_t *from, size_t from_length,
                             uint8_t *to, size_t to_length,
                             uint8_t *metered, size_t metered_length,
                             uint16_t *weight, size_t weight_length,
                             int32_t *reading, size_t reading_length,
                             uint8_t *ranged, size_t ranged_length,
                             int32_t *low, size_t low_length,
                             int32_t *high, size_t high_length);

/* The sheet reader: reads a kept sheet back in.
 *
 * Reads   the sheet's bytes_length bytes.
 * Returns 0, or 1, 13, 14 or 15. The order: 1, then 13 for each record in turn, then of the total 13, 14, 15.
 *         1:  `kinds` or `flows` has fewer than 96 elements, however many streams the sheet lists.
 *         13: a record is missing, cut short, a 97th stream or of a wrong kind. A total that is cut is 13, whatever the
 *             fields hold that are there.
 *         14: the office is above 7, the sheet number is 0, the degrees are above 32, or the verdict is not 2 at degrees 0,
 *             or not 0, 1 or 3 at more degrees. The cost is free, and nothing is compared with the streams.
 *         15: bytes follow the total.
 * Writes, where it returns 0:
 *         at index k - 1 of `kinds` the kind of stream k's record (0x11 A, 0x12 R, 0x13 G, 0x14 W), at the same index of
 *         `flows` its flow, 0 for W; the elements past the last stream keep their values;
 *         *count: how many streams there are; *kind: the kind of the total, 0x1E, or 0x1F on sheets drawn before there were
 *         offices; *office: the office that drew the sheet, 0 for 0x1F; *sheet, *cost, *degrees, *verdict: the rest of the total.
 * Writes, where it returns another number:
 *         0 to *count, *kind, *office, *sheet, *cost, *degrees and *verdict, and nothing else. All elements of `kinds` and
 *         `flows` are as they were.
 * What the seven numbers were before the call makes no difference. A sheet of the sheet call is always read, and gives
 * what was written.
 */
uint8_t wengeludo_read_sheet(const uint8_t *bytes, size_t bytes_length,
                             uint8_t *kinds, size_t kinds_length,
                             int64_t *flows, size_t flows_length,
                             size_t *count, uint8_t *kind, uint8_t *office,
                             uint32_t *sheet, uint64_t *cost,
                             uint8_t *degrees, uint8_t *verdict);

/* The kinds of record of a transmitter file, beside the site (0x01) and the end (0x04) of a plant file. */
enum {
    WENGELUDO_MEASURED = 0x21, /* from, to, value (4, a 32-bit float), deviation (8, a 64-bit float), high byte first */
    WENGELUDO_HELD = 0x22,     /* the same; a value held from before */
    WENGELUDO_FAULT = 0x23     /* from, to; no signal, so that the stream is unmetered */
};

/* The translator: writes the plant file that a transmitter file becomes.
 *
 * Reads   the file's file_length bytes: a site record, a record for each stream, an end record.
 *         The reading of a value is the nearest whole number, an exact half going to the even one. The weight of
 *         a deviation is the whole part of 1,000 / (deviation * deviation) in 64-bit floats, each operation rounded
 *         once; for a held value a quarter of that, rounded down, at least 1.
 * Returns 0, or one of 1, 3 to 12, 16, 17. The order: 1, then the file's records one after the other; in a record of a
 *         stream 3, 4, 5, 3, 7, 8, 16, 17, 9 (the weight, before its quarter is taken), 10 (the reading).
 * Writes, where it returns 0:
 *         the plant file at the front of `plant` (at most 868 bytes); the bytes past it keep their values;
 *         *written: how many bytes the plant file has.
 * Writes, where it returns another number:
 *         *written: 0, and nothing else. All bytes of `plant` are as they were.
 * What *written was before the call makes no difference.
 */
uint8_t wengeludo_plant_from_transmitter(const uint8_t *file, size_t file_length,
                                         uint8_t *plant, size_t plant_length,
                                         size_t *written);

/* The moves: a plant file to the ranged form, and home again.
 *
 * Reads   the file's file_length bytes, a plant file.
 *         To the ranged form: each metered stream without a range (0x02) becomes one with the widest range, 0x06 with
 *         -2,000,000,000 to 2,000,000,000; a stream that has a range keeps it. Home: each stream with the widest range
 *         becomes one without (0x02). Unmetered streams stay as they are.
 * Returns 0, or one of 1, 3 to 12, 18; home also 20, where any range is narrower. The order: 1, then the file's records
 *         one after the other (18 after 10), 12, then 20. Neither call returns 19.
 * Writes, where it returns 0:
 *         the plant file at the front of `out` (at most 1,636 bytes); the bytes past it keep their values;
 *         *written: how many bytes it has.
 * Writes, where it returns another number:
 *         *written: 0, and nothing else. All bytes of `out` are as they were.
 * What *written was before the call makes no difference.
 *
 * A file without 0x06 survives the trip: moved there and home it is the file itself, and in the ranged form its sheet is
 * the same, byte for byte. A plant that has both kinds may come to another sheet in the ranged form, or to 19.
 */
uint8_t wengeludo_to_ranged(const uint8_t *file, size_t file_length,
                            uint8_t *out, size_t out_length,
                            size_t *written);
uint8_t wengeludo_from_ranged(const uint8_t *file, size_t file_length,
                              uint8_t *out, size_t out_length,
                              size_t *written);

/* Meters to buy: the cheapest set of unmetered streams to be metered so that nothing is withheld.
 *
 * Reads   the plant file's file_length bytes, and prices_length prices: one for each unmetered stream, in stream order, from
 *         1 to 1,000,000. Ranges play no part.
 * Returns 0, or one of 1, 3 to 12, 18, 21. The order: 1, then the file's records one after the other, then 21, also where
 *         nothing is withheld.
 *         1:  `streams` has fewer than 96 elements, however many streams are to be metered.
 * Writes, where it returns 0:
 *         the numbers of the streams to be metered, counted from 1, in rising order at the front of `streams`; the elements
 *         past them keep their values; *count: how many they are, none where nothing is withheld; *price: what they cost
 *         together, at most 95,000,000.
 * Writes, where it returns another number:
 *         0 to *count and *price, and nothing else. All elements of `streams` are as they were.
 * What the two numbers were before the call makes no difference.
 *
 * With these streams metered too, every two balanced flows that agree on all metered streams are equal. No set of unmetered
 * streams with that property is cheaper; of the equally cheap ones, the numbers of this one come first at the first difference.
 */
uint8_t wengeludo_meters_to_buy(const uint8_t *file, size_t file_length,
                                const uint32_t *prices, size_t prices_length,
                                uint8_t *streams, size_t streams_length,
                                size_t *count, uint32_t *price);

/* The survey of meter layouts: which of the streams of a plant file are metered plays no part, nor do ranges.
 *
 * Reads   the file's file_length bytes.
 * Returns 0, or one of 1, 3 to 12, 18, 23. The order: 1 (`counts` has fewer than 13 elements), then the file's records as
 *         in the sheet call, then 23 (more than 12 streams). Never 19.
 * Writes, where it returns 0:
 *         at index k of `counts`, for each k from 0 to the number of streams, how many choices of k metered streams
 *         leave none withheld; the elements past them keep their values;
 *         *count: how many streams there are.
 * Writes, where it returns another number:
 *         *count: 0, and nothing else. All elements of `counts` are as they were.
 * What *count was before the call makes no difference.
 */
uint8_t wengeludo_layouts_of(const uint8_t *file, size_t file_length,
                             uint16_t *counts, size_t counts_length,
                             size_t *count);

/* Meters worth a visit: what each meter costs the balance.
 *
 * Reads   the file's file_length bytes, a plant file.
 * Returns 0, or one of 1, 3 to 12, 18, 19. The order: 1, then the file's records as in the sheet call, then 19, also where
 *         making one meter unmetered would leave a balanced flow in range.
 *         1:  `streams` or `costs` has fewer than 96 elements, however many streams are listed.
 * Writes, where it returns 0:
 *         for every A stream of the plant's sheet the least cost with that stream, and its range, made unmetered, listed by
 *         that cost, equals by stream number: at the front of `streams` the streams' numbers, counted from 1, at the same
 *         indices of `costs` their costs; the elements past the list keep their values;
 *         *count: how many streams are listed, none where no stream is of class A.
 * Writes, where it returns another number:
 *         *count: 0, and nothing else. All elements of `streams` and `costs` are as they were.
 * What *count was before the call makes no difference.
 *
 * A cost above 18,446,744,073,709,551,615 counts and is written as that number, as on a sheet. No cost is above the sheet's. No
 * place is marked where 19 is returned; the sheet call does that.
 */
uint8_t wengeludo_visits(const uint8_t *file, size_t file_length,
                         uint8_t *streams, size_t streams_length,
                         uint64_t *costs, size_t costs_length,
                         size_t *count);

/* Steam charges: what each stream to the outside is charged for one hour, in whole cents, and the bill.
 *
 * Reads   the file's file_length bytes, a plant file, and rates_length rates: one for each stream whose `to` is 0, in stream
 *         order, from 0 to 10,000 ten-thousandths of a cent per kg. That they are in stream order is the caller's word: the
 *         call sees how many they are and how large. A stream from the outside is not charged, whatever it carries.
 * Returns 0, or one of 1, 3 to 12, 18, 19, 24, 25. The order: 1, then the file's records as in the sheet call, then 19, 24, 25.
 *         1:  `streams` or `charges` has fewer than 96 elements, however many streams are charged.
 *         25: a stream to the outside is withheld on the sheet, also where its rate is 0.
 *         No sheet number is drawn, and the verdict is not looked at: a sheet that fails is billed as one that passes.
 * Writes, where it returns 0:
 *         at the front of `streams` the numbers of the streams to the outside, counted from 1, in stream order, at the same
 *         indices of `charges` what each is charged, in cents; the elements past them keep their values;
 *         *count: how many they are; *bill: the bill, in cents.
 * Writes, where it returns another number:
 *         0 to *count and *bill, and nothing else. All elements of `streams` and `charges` are as they were.
 * What the two numbers were before the call makes no difference.
 *
 * A share is the flow on the sheet times the rate; a negative flow has a credit. The bill is the exact sum of the shares, rounded
 * toward minus infinity. Each charge is its share rounded the same way, and the cents then missing from the bill go one each to
 * the largest remainders, of equal ones to the lower stream. So the charges add up to the bill, and each is less than one cent
 * away from its share. Of two credits of half a cent the lower stream gets 0, the higher -1.
 */
uint8_t wengeludo_charges(const uint8_t *file, size_t file_length,
                          const uint16_t *rates, size_t rates_length,
                          uint8_t *streams, size_t streams_length,
                          int64_t *charges, size_t charges_length,
                          size_t *count, int64_t *bill);

/* The check of a sheet, drawn up here or elsewhere, against its plant file.
 *
 * Reads   the plant file's plant_length bytes, the sheet's sheet_length bytes, and one number for each of the places 0 to n.
 * Returns 0 where the sheet passes, or one of 3 to 12, 18, 13 to 15, 26. The order: the plant file's records as in the sheet
 *         call, then the sheet's as in the sheet reader, then 26. Never 19.
 *         26: a rule is broken. The numbers are one for each place, from -10^18 to 10^18. The plant has a sheet; classes, degrees,
 *             cost and verdict are those of that sheet (its number, its office and the kind of its total are free). For an A or R
 *             stream the number of its to-place less that of its from-place lies from weight * (2 * d - 1) to
 *             weight * (2 * d + 1), d being its flow less its reading; a flow at its low may fall short of the first, one at its
 *             high may exceed the second. Its flow lies in range. The places of an unmetered stream have equal numbers. In each
 *             set of places that W streams join, a place without them being a set by itself, the flows of the other streams in
 *             and out have equal sums.
 * Writes  nothing.
 *
 * A sheet that passes shows a balanced flow within all ranges, the W streams aside, that no other undercuts in cost. No flow is
 * looked for, so the check of a large plant takes a third of the time of a sheet call.
 */
uint8_t wengeludo_check_sheet(const uint8_t *plant, size_t plant_length,
                              const uint8_t *sheet, size_t sheet_length,
                              const int64_t *numbers, size_t numbers_length);

/* Numbers of the places of a plant file, with which its sheets pass the check.
 *
 * Reads   the file's file_length bytes.
 * Returns 0, or one of 1, 3 to 12, 18, 19. The order: 1 (`numbers` has fewer than 33 elements), then as in the sheet call.
 * Writes, where it returns 0:
 *         at index u of `numbers` the number of place u, 0 for the outside; the elements past them keep their values;
 *         *count: how many places there are, n + 1.
 * Writes, where it returns another number:
 *         *count: 0, and nothing else. All elements of `numbers` are as they were.
 * What *count was before the call makes no difference.
 *
 * Which numbers they are is the call's choice. With every choice each sheet that the sheet call draws of the file passes, and each
 * that differs from it only in showing another balanced flow within all ranges of the same cost.
 */
uint8_t wengeludo_place_numbers(const uint8_t *file, size_t file_length,
                                int64_t *numbers, size_t numbers_length,
                                size_t *count);

/* The check of a flow that was found elsewhere, of a plant by its parts, with wide weights and readings.
 *
 * Reads   units (n), count (how many streams), the first `count` elements of each of the eight slices of the plant's parts, which
 *         mean what they mean to the plant writer, and of `flow`, a flow for each stream; and the first n + 1 elements of
 *         `numbers`, one for each place, the outside first. Elements past these make no difference, nor do weight, reading and range
 *         of an unmetered stream, nor low and high where there is no range.
 * Returns 0 where the flow passes, or one of 1, 5 to 10, 18, 26. The order: 1, 6, 5, then stream after stream, in each 7 to 10, then
 *         18; then 26. Never 19.
 *         1:  one of the eight slices or `flow` has fewer than `count` elements, or `numbers` fewer than n + 1.
 *         9:  the weight of a metered stream is 0 or over 2^40 (1,099,511,627,776).
 *         10: its reading is outside -2^40 to 2^40.
 *         18: its low is above its high. Else low and high may be any numbers.
 *         26: a rule is broken. The flows lie from -2^55 to 2^55, the numbers from -2^61 to 2^61. What flows into each unit is what
 *             flows out of it. For a metered stream the number of its to-place less that of its from-place lies from
 *             weight * (2 * d - 1) to weight * (2 * d + 1), d being its flow less its reading; a flow at its low may fall short of
 *             the first, one at its high may exceed the second. Its flow lies in range. The places of an unmetered stream have equal
 *             numbers.
 * Writes  nothing.
 *
 * A flow that passes is balanced and within all ranges, and no other whole flow that is undercuts it in cost, the sum of
 * weight * d * d over the metered streams; none in fractions does by more than a quarter of the summed weights of these streams.
 * That is proved, for every input. A flow of least cost whose numbers lie past their limit is answered 26: the check does not say
 * that it is wrong. No verdict, no class and no cost is given.
 */
uint8_t wengeludo_check_flow(uint8_t units, size_t count,
                             const uint8_t *from, size_t from_length,
                             const uint8_t *to, size_t to_length,
                             const uint8_t *metered, size_t metered_length,
                             const uint64_t *weight, size_t weight_length,
                             const int64_t *reading, size_t reading_length,
                             const uint8_t *ranged, size_t ranged_length,
                             const int64_t *low, size_t low_length,
                             const int64_t *high, size_t high_length,
                             const int64_t *flow, size_t flow_length,
                             const int64_t *numbers, size_t numbers_length);

#ifdef __cplusplus
}
#endif

#endif
