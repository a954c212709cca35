/* The sentences on refusals, once. docs/REFUSALS.md repeats them, and .ci/refusals holds it to that. */
#ifndef REFUSALS_H
#define REFUSALS_H

#include <stddef.h>

struct refusal {
    const char *meaning;
    const char *what_to_do;
};

/* By their numbers; the first has none. */
extern const struct refusal refusals[];
extern const size_t refusals_end; /* one more than the last number */

#endif
