/* plain.h: the analysis in plain C, which the bench measures the proved one against, and a screen of windows. */
#ifndef PLAIN_H
#define PLAIN_H

#include "sosnyavik.h"

/* The types of sosnyavik_request_analyse and .._windows, so that the driver calls either through one pointer. */
typedef uint32_t Analysis(const struct sosnyavik_request *asked, struct sosnyavik_results results);
typedef uint32_t Screening(const struct sosnyavik_request *asked, struct sosnyavik_screen screen,
                           struct sosnyavik_results results);

/* Arguments and answer are those of sosnyavik_request_analyse, which include/sosnyavik.h documents, but that no wind
 * column may be left out: as for the plain call, one that is not there is refusal 4. */
Analysis plain_analyse;

/* And these are those of sosnyavik_request_windows. */
Screening plain_windows;

#endif
