/* Cases: calls that belong together, with what must hold between one and the next. */
#ifndef CASES_H
#define CASES_H

#include <stdbool.h>

/* Case `number` of the seed, the same whichever cases were run before it. */
void run_case(unsigned long number);

/* Prints how often calls were held beside each other. Whether each such comparison was made. */
bool print_compared(void);

#endif
