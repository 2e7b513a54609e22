/* Standard output and standard error: whole lines only, so that the lines of several processes that write into one pipe
 * do not tear. */
#ifndef COLUMNS_OUTPUT_H
#define COLUMNS_OUTPUT_H

#include "room.h"

/* Looks at the three standard files. A closed one is filled, so that no file that is opened later takes its place. */
void output_begin(void);

/* Lines for standard output, gathered and written when there are enough of them. A write that fails ends the program
 * with status 2. */
void output_lines(const void *lines, size_t length);

/* Writes what is gathered. */
void output_flush(void);

/* Writes what is gathered, and closes standard output, which is where some file systems say that a disk is full. */
void output_end(void);

/* Lines for standard error, behind what standard output was given before. */
void complain(const struct bytes *lines);

/* "columns: ", a text, and a newline on standard error. */
void complain_text(const char *text);

/* The same, and the program ends with status 2; no temporary file is left. */
void stop_at_once(const char *text) __attribute__((noreturn));

/* Where standard error is a terminal and standard output is none: how far a long run is, over what was said of that
 * before. */
bool progress_is_shown(void);
void progress_say(const char *before, uint64_t done, const char *between, uint64_t all, const char *behind);

#endif
