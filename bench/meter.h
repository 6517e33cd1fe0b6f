/* What calls.c and stops.c share: how they wait, and how they time the batches of a workload. */
#include <sched.h>
#include <stdbool.h>
#include <stdint.h>
#include <stdio.h>
#include <stdlib.h>
#include <string.h>
#include <time.h>

/* What crossbeam's Backoff does: spins 1, 2, .. 64 times, then yields. */
static void snooze(uint32_t *step)
{
	if (*step <= 6) {
		for (uint32_t i = 0; i < 1u << *step; i++)
			__builtin_ia32_pause();
		*step += 1;
	} else {
		sched_yield();
	}
}

/* The meter: times of batches in tenths of a nanosecond for one operation. */
static _Alignas(64) struct {
	bool counts;
	uint64_t limit, operations, began, last;
	uint64_t *samples;
	size_t length, room;
} meter;

static uint64_t now(void)
{
	struct timespec t;
	clock_gettime(CLOCK_MONOTONIC, &t);
	return (uint64_t)t.tv_sec * 1000000000u + t.tv_nsec;
}

static bool lap(uint32_t operations)
{
	uint64_t time = now();
	if (operations > 0) {
		if (meter.length == meter.room) {
			meter.room = meter.room ? 2 * meter.room : 1024;
			meter.samples = realloc(meter.samples, meter.room * sizeof *meter.samples);
			if (!meter.samples)
				exit(1);
		}
		meter.samples[meter.length++] = (time - meter.last) * 10 / operations;
	}
	meter.last = time;
	meter.operations += operations;
	return meter.counts ? meter.operations < meter.limit : (time - meter.began) / 1000000 < meter.limit;
}

static int compare(const void *a, const void *b)
{
	uint64_t x = *(const uint64_t *)a, y = *(const uint64_t *)b;
	return (x > y) - (x < y);
}

/* The first batch begins now. */
static void begin_meter(void)
{
	meter.operations = meter.length = 0;
	meter.began = meter.last = now();
}

/* The line of a workload: what has run where operations are counted, else the median and the lowest tenth of the times. */
static void print_line(const char *name, uint32_t threads, uint64_t ran)
{
	printf("%s %u %lu ", name, threads, (unsigned long)meter.operations);
	if (meter.counts) {
		printf("%lu\n", (unsigned long)ran);
		return;
	}
	qsort(meter.samples, meter.length, sizeof *meter.samples, compare);
	uint64_t median = meter.samples[meter.length / 2], low = meter.samples[meter.length / 10];
	printf("%lu.%lu %lu.%lu\n", (unsigned long)(median / 10), (unsigned long)(median % 10),
	       (unsigned long)(low / 10), (unsigned long)(low % 10));
}

/* Reads time|count THREADS LIMIT: the number of threads. */
static uint32_t read_words(const char *program, int argc, char **argv)
{
	uint32_t threads = argc > 2 ? (uint32_t)atoi(argv[2]) : 0;
	if (argc < 4 || threads < 2 || threads > 7) {
		fprintf(stderr, "usage: %s time|count THREADS LIMIT [WORKLOAD]\n", program);
		exit(2);
	}
	meter.counts = strcmp(argv[1], "count") == 0;
	meter.limit = strtoul(argv[3], NULL, 10);
	return threads;
}
