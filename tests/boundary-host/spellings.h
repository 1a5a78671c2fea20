/* Messages of one form, of which it is known what each mode and an offer must answer, whatever characters they have. */
#ifndef SPELLINGS_H
#define SPELLINGS_H

#include <stdbool.h>

/* A message that is sound but for one character, in any of its places and written in any way. */
void case_character(void);

/* A sound message whose values have characters of any length, about as many as are cut. */
void case_cut_values(void);

/* Prints how often answers were held beside what is known. Whether each place and each cut was tried. */
bool print_spellings(void);

#endif
