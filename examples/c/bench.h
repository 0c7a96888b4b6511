/* How fast two ends are. */
#ifndef BENCH_H
#define BENCH_H

/* So many megabytes go one way under each algorithm, without losses; bytes a second and processor time are printed. */
int bench(unsigned long megabytes);

#endif
