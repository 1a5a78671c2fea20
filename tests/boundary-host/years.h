/* Boards with a record of which it is known whether its year keeps the rules, and whether a header is due beside it. */
#ifndef YEARS_H
#define YEARS_H

#include <stdbool.h>

/* A made board with a notice, and with another record that has a year in any way. */
void case_year(void);

/* Prints how often a year was tried in each way. Whether each was. */
bool print_years(void);

#endif
