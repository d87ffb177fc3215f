/* The sentence of a refusal as a function of the shared library, for those who have no C header: dlopen, Java, Go. */
/* SPDX-License-Identifier: LicenseRef-Wengeludo */
#define wengeludo_refusal_text sentence_of
#include "wengeludo_balance.h"
#undef wengeludo_refusal_text

const char *wengeludo_refusal_text(uint8_t number);

const char *wengeludo_refusal_text(uint8_t number) { return sentence_of(number); }
