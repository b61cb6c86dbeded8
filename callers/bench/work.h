/* What the measuring programs share: how much work there is, its keys, and what is told of it. */
#ifndef WORK_H
#define WORK_H
#include <stdint.h>
#include <stdio.h>
#include <stdlib.h>
#include <time.h>

#define IS(c, wanted) do { int rc_ = (c); if (rc_ != (wanted)) { fprintf(stderr, "line %d: %d\n", __LINE__, rc_); exit(1); } } while (0)
#define OK(c) IS(c, 0)
enum { KEYS = 20032, COMMITS = 1600, READS = 200000, SCANS = 1600, LIMIT = 100 };

static inline uint64_t mix(uint64_t x)
{
	x += 0x9e3779b97f4a7c15u;
	x = (x ^ x >> 30) * 0xbf58476d1ce4e5b9u;
	x = (x ^ x >> 27) * 0x94d049bb133111ebu;
	return x ^ x >> 31;
}
static inline double on(clockid_t clock)
{
	struct timespec t;
	clock_gettime(clock, &t);
	return (double)t.tv_sec + (double)t.tv_nsec / 1e9;
}

/* Says how many a second by the clock, and microseconds of processor each, since a start by both clocks. */
static inline void tell(const char *who, unsigned threads, const char *what, double count, double wall, double processor)
{
	wall = on(CLOCK_MONOTONIC) - wall;
	processor = on(CLOCK_PROCESS_CPUTIME_ID) - processor;
	printf("c %s %u %s: %.0f a second, %.2f us of processor\n", who, threads, what, count / wall, processor / count * 1e6);
	fflush(stdout);
}

#endif
