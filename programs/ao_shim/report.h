/* What is told of all that was counted. */
#ifndef REPORT_H
#define REPORT_H

#include "program.h"

/* One line of JSON. */
void print_json(FILE *file, const struct tally *tally);

/* The line `counters {..}` on standard error. */
void tell_counters(struct program *p);

/* Writes the files of --status and --metrics, where they are wanted. */
void write_reports(struct program *p);

#endif
