/* What is printed where help is asked for. */
#ifndef COLUMNS_HELP_H
#define COLUMNS_HELP_H

#include "system.h"

bool help_is_there(const char *verb);

/* The help of a verb, or of the program with an empty verb, on standard output. */
void help_of(const char *verb);

/* The help of the program on standard error, where there is no verb. */
void help_is_missing(void);

void help_version(void);

#endif
