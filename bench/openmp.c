// The tree of 127 tasks as OpenMP tasks on two threads: seven depths, each task but those of the last making two of the
// next, each reading one location and writing another.
#include "openmp.h"

static int locations[2];

// `waits`: a task ends only when its children have, so that a task waits for all that come before it, not for its siblings
// alone. This is the order that the runtime keeps.
static void task(int depth, int waits, unsigned *made) {
    __atomic_add_fetch(made, 1, __ATOMIC_RELAXED);
    if (depth == 6) return;
    for (int i = 0; i < 2; i++) {
#pragma omp task depend(in : locations[0]) depend(inout : locations[1]) firstprivate(depth, waits, made)
        task(depth + 1, waits, made);
    }
    if (waits) {
#pragma omp taskwait
    }
}

// Publishes the tree `times` times, one after the other, and gives how many tasks were made.
unsigned openmp_trees(int times, int waits) {
    unsigned made = 0;
#pragma omp parallel num_threads(2)
#pragma omp single
    for (int i = 0; i < times; i++) {
#pragma omp taskgroup
        {
#pragma omp task depend(in : locations[0]) depend(inout : locations[1]) shared(made) firstprivate(waits)
            task(0, waits, &made);
        }
    }
    return made;
}
