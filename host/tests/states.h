/* states.h: states of every length, damaged states and states of random
 * bytes, against what holds of any state. */
#ifndef STATES_H
#define STATES_H

#include <stdbool.h>

/* False, with a line on standard output, where something does not hold. */
bool states_of_each_length(void);
bool states_damaged(void);

#endif
