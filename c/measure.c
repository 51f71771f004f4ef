/* The time of wild_write over the layout that plan_to_c.py wrote: the best of ten calls, and that of wild_image_size.
 *
 *     plans/make_large.py 16384 | c/plan_to_c.py > large.c && gcc -O1 -Ic large.c c/measure.c LIBRARIES && ./a.out */
#include "wild.h"
#include <stdio.h>
#include <stdlib.h>
#include <time.h>

enum { CALLS = 10 };

const wild_layout *planned_layout(void);

static double now(void)
{
    struct timespec time;
    clock_gettime(CLOCK_MONOTONIC, &time);
    return (double)time.tv_sec * 1e3 + (double)time.tv_nsec / 1e6;
}

int main(void)
{
    const wild_layout *layout = planned_layout();
    double best = 1e9, best_size = 1e9;
    uint64_t size = 0;
    for (int i = 0; i < CALLS; i++) {
        double start = now();
        if (wild_image_size(layout, &size) != WILD_WRITTEN)
            return 70;
        double took = now() - start;
        best_size = took < best_size ? took : best_size;
    }
    uint8_t *out = malloc(size);
    uint64_t *counts = malloc(layout->sections.len * sizeof *counts);
    for (int i = 0; i < CALLS; i++) {
        wild_warning warning;
        wild_fault fault;
        double start = now();
        if (wild_write(layout, out, size, counts, layout->sections.len, &warning, &fault) != WILD_WRITTEN)
            return 71;
        double took = now() - start;
        best = took < best ? took : best;
    }
    printf("image of %llu bytes: %.1f ms; its size alone: %.3f ms\n", (unsigned long long)size, best, best_size);
    free(out);
    free(counts);
    return 0;
}
