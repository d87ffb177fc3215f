/* Where a file is refused: the byte and the stream. Host code beside the proved calls: it reads a file in the same order and finds the
 * place of the first fault; whether a file is taken is the calls' word. Tested against them over every refusal.
 *
 * In the shared library, and for programs that link the archive in libwengeludo_host.a beside it.
 */
/* SPDX-License-Identifier: LicenseRef-Wengeludo */
#ifndef WENGELUDO_FAULT_H
#define WENGELUDO_FAULT_H

#include "wengeludo_balance.h"

#ifdef __cplusplus
extern "C" {
#endif

/* The first fault of a plant file, of a transmitter file.
 *
 * Returns 0, or the number of the refusal: 3 to 12 and 18 of a plant file, 3 to 12, 16 and 17 of a transmitter file.
 * Writes  *byte: the place of the first byte of the field at fault, counted from 0; of a file that ends too early its length.
 *         *stream: the number of the stream whose record it is in, counted from 1; 0 for the site, the end and what follows it.
 *         Both 0 if it returns 0.
 */
uint8_t wengeludo_plant_fault_at(const uint8_t *file, size_t file_length, size_t *byte, size_t *stream);
uint8_t wengeludo_transmitter_fault_at(const uint8_t *file, size_t file_length, size_t *byte, size_t *stream);

#ifdef __cplusplus
}
#endif

#endif
