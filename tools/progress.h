/*
 * A line on a terminal while the library works: what it does and for how many seconds. In a pipe, nothing.
 */
#ifndef DESK_PROGRESS_H
#define DESK_PROGRESS_H

void begin_progress(const char *what);

/* Takes the line away again. */
void end_progress(void);

#endif
