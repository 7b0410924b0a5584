/* A line on standard error, where that is a terminal, that tells what the program is at when it takes longer than a second. */
#ifndef HOST_PROGRESS_H
#define HOST_PROGRESS_H

/* From now on a line each second says so, until stop_progress. Nothing is printed in between. */
void start_progress(const char *what);

/* Takes the line away. */
void stop_progress(void);

#endif
