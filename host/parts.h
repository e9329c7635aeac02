/* parts.h: what the host tries. Each part ends the program with one line if the archive does otherwise than the header
 * says. */
#ifndef PARTS_H
#define PARTS_H

#include <stdbool.h>

/* No result holds four of this byte, nor one. */
enum { UNTOUCHED = 0xA5 };

void must(bool holds, const char *what);

void try_evening(void);
void try_breeze(void);
void try_lone_masts(void);
void try_buddies(void);
void try_courtyard(void);
void try_windows(void);
void try_screens(void);
void try_refusals(void);
void try_readings(void);
void try_threads(void);
void try_small_stacks(void);

#endif
