/* What the two calls of a conversion answer, held beside each other. */
#ifndef BOTH_H
#define BOTH_H

#include "calls.h"

/* What both answered to one message and one station, all outputs long enough, with the header and the text given. */
void check_both(uint64_t of_header, struct slice header, uint64_t of_text, struct slice text);

/* Prints how often both answered alike. Whether they did with each number and each field. */
bool print_both(void);

#endif
