/* Holds the calls to exact whole numbers where no operation rounds. */
#ifndef EXACT_H
#define EXACT_H

#include "bbfmm.h"

/* How many entries were held, of T, T' and T'' and of what the curvature call leaves; and how many differ. */
typedef struct {
    size_t second, curvature, faults;
} Exact;

Exact try_exact(void);

#endif
