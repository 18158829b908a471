/*
 * pauses.h - leads the pause instruction of the modules of kupaldiz_waiting.h to turns.c: it is
 * included before all of each file
 */
void pause_seen(void);
#define SPIN_PAUSE	pause_seen
