unsigned openmp_trees(int times, int waits);
