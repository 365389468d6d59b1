/* The tables, and which goals are missed. */

#ifndef REPORT_H
#define REPORT_H

#include "workload.h"

void print_speed(const struct workload *workloads, unsigned count);
void print_growth(const struct workload *workloads, unsigned count);

/* Says each goal that is missed, and answers whether all are met. */
bool print_goals(const struct workload *workloads, unsigned count);

#endif
