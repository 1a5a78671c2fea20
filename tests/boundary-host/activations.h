/* Messages of one form, of which it is known whether they activate something, and what both calls then answer. */
#ifndef ACTIVATIONS_H
#define ACTIVATIONS_H

#include <stdbool.h>

/* An Alert or a Cancel in which what a header asks is there, is left out or is bad. */
void case_activation(void);

/* Prints how often such messages were answered in each way. Whether each was. */
bool print_activations(void);

#endif
