/* One plant's structure and many rows of readings in, a sheet for each row out, by the calls of the archive alone.
 *
 * What is unproved here: that a row's cells become the right transmitter file, and that what the calls give is put at its place. With
 * `numbers` every sheet is held against the plant file that it was drawn from, by the proved check.
 */
/* SPDX-License-Identifier: LicenseRef-Wengeludo */
#ifndef WENGELUDO_ROWS_H
#define WENGELUDO_ROWS_H

#include <stddef.h>
#include <stdint.h>

/* What every row has in common: stream k of the plant stands at index k - 1 of each array. */
typedef struct {
    uint8_t units;
    size_t streams;
    const uint8_t *from;
    const uint8_t *to;
    const uint8_t *ranged; /* NULL: no stream has a range; else low and high are there, too */
    const int32_t *low;
    const int32_t *high;
    const uint16_t *rates; /* one for each stream to the outside, in stream order */
    size_t charged;        /* how many these are */
} rows_plant;

/* The rows: cells of stream k in row r stand at r * streams + k - 1. */
typedef struct {
    const float *values;
    const double *deviations;
    size_t step;           /* 0: one row of deviations for all rows; streams: one for each row */
    const uint8_t *status; /* WENGELUDO_MEASURED, WENGELUDO_HELD, or WENGELUDO_FAULT: no reading */
} rows_in;

/* The sheets, at the same indices. What a row does not have is 0. */
typedef struct {
    uint8_t *refusal; /* 0, or the number of the first call that refused the row */
    int64_t *flows;   /* rows x streams; 0 for a blank */
    uint8_t *kinds;   /* rows x streams: 0x11 to 0x14 */
    uint64_t *cost;   /* thousandths */
    uint8_t *degrees;
    uint8_t *verdict;
    size_t most;            /* how many meters are taken out one after the other in a row that fails; 0: the next four are NULL */
    uint8_t *dropped;       /* rows x most: streams counted from 1, 0 past the last */
    int64_t *dropped_flow;  /* rows x most: what its pipe carries on the sheet without it and those before it */
    uint64_t *dropped_cost; /* rows x most: what that sheet costs */
    uint8_t *cleared;       /* the verdict of the last of these sheets */
    int64_t *cents;         /* rows x charged, or NULL: no charges */
    int64_t *bill;
    uint8_t *unbilled; /* 0, or the number with which the charges were refused */
    int64_t *numbers;  /* rows x 33, or NULL: no check */
    uint8_t *checked;  /* 0, or the number with which the check of sheet and numbers was refused */
} rows_out;

/* Balances rows first to last - 1; gives how many were refused. Keeps nothing, and needs some 20 KB of stack whatever the rows. */
size_t rows_balance(const rows_plant *plant, const rows_in *in, const rows_out *out, size_t first, size_t last);

#endif
