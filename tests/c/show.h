/* Shows the result of each kind of call: a line on standard output. */
#ifndef SHOW_H
#define SHOW_H

#include "planner.h"

void show_counts(const char *call, uint64_t result);

/* The plan's records stand in the area. */
void show_plan(const char *call, uint64_t result, const uint8_t *area);

void show_second(const char *call, uint64_t result);
void show_change(const char *call, uint64_t result);
void show_sum(const char *call, uint64_t result);

#endif
