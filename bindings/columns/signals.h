/* Signals: one that can be caught removes the temporary file, and then ends the program as it would without us. */
#ifndef COLUMNS_SIGNALS_H
#define COLUMNS_SIGNALS_H

#include "system.h"

void signals_begin(void);

/* From here until the release no signal is heard. A hold within a hold is none. */
void signals_hold(void);
void signals_release(void);

/* From here on none is heard any more, and a release is none. */
void signals_hold_for_good(void);

/* The temporary file that is to be removed: its folder and its name, which stay where they are; or none, with a null
 * name. It is set while signals are held. */
void temporary_is(int folder, const char *name);

/* Ends the program with a status; the temporary file is removed. */
void leave(int status) __attribute__((noreturn));

#endif
