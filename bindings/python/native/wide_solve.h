/* The solver of the tool for plants with wide weights, and the same with every answer checked.
 *
 * NOTHING HERE IS PROVED. wide_solve looks for a flow of least cost and for numbers of the places that show it; whether they do,
 * the proved call wengeludo_check_flow tells. Who shows a flow to a person takes wide_checked or wide_rows, which hand out nothing
 * that the check did not pass.
 */
/* SPDX-License-Identifier: LicenseRef-Wengeludo */
#ifndef WIDE_SOLVE_H
#define WIDE_SOLVE_H

#include <stddef.h>
#include <stdint.h>

#define WIDE_PLACES 33
#define WIDE_STREAMS 96

/* What the calls here return beside the refusals of wengeludo_check_flow. */
enum {
    WIDE_FOUND = 0,          /* flow and number are filled */
    WIDE_NO_FLOW = 19,       /* no balanced flow lies within all ranges; some places must take in more than they can let out */
    WIDE_NOT_CERTIFIED = 26, /* no flow was found that passes the check; there may be one */
    WIDE_OUTSIDE = 100,      /* wide_solve alone: the plant is past the limits of the check, or has a fault */
    WIDE_FAR = 101,          /* wide_solve alone: a number is past those limits */
    WIDE_GAVE_UP = 102       /* wide_solve alone: too many improvements */
};

/* A plant by its parts, as wengeludo_check_flow takes them: `count` elements in each array. */
typedef struct {
    uint8_t units;
    size_t count;
    const uint8_t *from;
    const uint8_t *to;
    const uint8_t *metered;
    const uint64_t *weight;
    const int64_t *reading;
    const uint8_t *ranged;
    const int64_t *low;
    const int64_t *high;
} wide_plant;

/* Looks for the balanced flow in range of least cost, of several the one that is least on the first metered stream, then on the
 * second, and so on; and for one number of each place that shows it. `flow` has `count` elements, `number` units + 1.
 * 0:  both are filled. 19: number[place] is 1 for the places that must take in more than they can let out, 0 for the others.
 * Otherwise neither is of use. Ends of ranges past +-2^50 count as +-2^50. Nothing is checked.
 */
uint8_t wide_solve(const wide_plant *plant, int64_t *flow, int64_t *number);

/* The same, checked: 0 where wengeludo_check_flow passes flow and number; 19 where the marked places (bit u: place u) were counted
 * to take in more than they let out; a fault's number, 5 to 10 or 18; else 26. With another number than 0 flow and number are all 0.
 * *marked is 0 but with 19.
 */
uint8_t wide_checked(const wide_plant *plant, int64_t *flow, int64_t *number, uint64_t *marked);

/* wide_checked for many rows of one plant: row r has its weights and readings at r * count, its flows likewise, its numbers at
 * r * (units + 1), its answer at r. The plant's own weights and readings are not looked at; a weight of 0 makes the stream unmetered
 * in that row. Gives how many rows were answered 0.
 */
size_t wide_rows(const wide_plant *plant, size_t rows, const uint64_t *weights, const int64_t *readings, int64_t *flows,
                 int64_t *numbers, uint8_t *answers);

#endif
