/* Names alone. */
#ifndef FORETELL_H
#define FORETELL_H

#include "rules.h"

/* With no queue and no token left, an instruction is refused for its names or not at all: what could get 20 to 23 counts as done. */
void forget_tokens(struct configuration *configuration);

#endif
