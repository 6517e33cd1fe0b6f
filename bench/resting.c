/*
 * A stop of many CPUs on few processors in plain C, with four ways to wait: what it would gain if CPUs slept between the
 * phases of a stop. It makes the steps that wait in stops.c, and no others: the gate, a work for each CPU, the phases with
 * their count, and the end. No proof covers this file.
 *
 *   cc -O2 -pthread -o resting bench/resting.c
 *   ./resting CPUS WAY SECONDS SOURCES
 *
 * The first SOURCES of the CPUs stop all of them again and again; the others wait for works. WAY 0: they poll, as `poll`. 1:
 * they sleep until a work is put, and poll in the stop, as `rest`. 2: they also sleep until the next phase; the CPU that
 * stores it rings for all. 3: as 1, and a source sleeps until the gate is free; the CPU that gives it up rings for those
 * that are marked, as after `Machine::sleep_after`.
 *
 * It prints how many stops were made, the mean of one with its wait for the gate, the longest, and the processor time of all
 * threads for each stop.
 */
#define _GNU_SOURCE
#include <linux/futex.h>
#include <pthread.h>
#include <sched.h>
#include <stdatomic.h>
#include <stdbool.h>
#include <stdio.h>
#include <stdlib.h>
#include <sys/syscall.h>
#include <time.h>
#include <unistd.h>

#define MOST 32

enum way { POLLS, RESTS, SLEEPS, SLEEPS_AT_GATE };

static struct {
	_Alignas(64) atomic_uint rings;
	atomic_uint set;
} alarms[MOST];

static struct {
	_Alignas(64) atomic_uint work;
} queues[MOST];

static _Alignas(64) atomic_uint gate;
static _Alignas(64) atomic_uint marked;
static _Alignas(64) atomic_uint state;
static _Alignas(64) atomic_uint ack;
static _Alignas(64) atomic_uint todo, done;
static _Alignas(64) atomic_uint stopping, ended, over;

static unsigned cpus, sources;
static enum way way;
static struct {
	_Alignas(64) unsigned long stops;
	double nanos, longest;
} made[MOST];

static double now(clockid_t clock)
{
	struct timespec t;

	clock_gettime(clock, &t);
	return t.tv_sec * 1e9 + t.tv_nsec;
}

/* As snooze of meter.h: whether it has spun long enough to sleep. */
static bool snooze(unsigned *step)
{
	if (*step <= 6) {
		for (unsigned i = 0; i < 1u << *step; i++)
			__builtin_ia32_pause();
		*step += 1;
		return false;
	}
	sched_yield();
	return true;
}

static unsigned set_alarm(unsigned cpu)
{
	atomic_fetch_add(&alarms[cpu].set, 1);
	return atomic_load(&alarms[cpu].rings);
}

static void leave_alarm(unsigned cpu)
{
	atomic_fetch_sub(&alarms[cpu].set, 1);
}

static void sleep_on_alarm(unsigned cpu, unsigned noted)
{
	while (atomic_load(&alarms[cpu].rings) == noted)
		syscall(SYS_futex, &alarms[cpu].rings, FUTEX_WAIT_PRIVATE, noted, NULL, NULL, 0);
	leave_alarm(cpu);
}

static void ring(unsigned cpu)
{
	if (atomic_load(&alarms[cpu].set)) {
		atomic_fetch_add(&alarms[cpu].rings, 1);
		syscall(SYS_futex, &alarms[cpu].rings, FUTEX_WAKE_PRIVATE, 1, NULL, NULL, 0);
	}
}

static void ring_all(unsigned but)
{
	for (unsigned cpu = 0; cpu < cpus; cpu++)
		if (cpu != but)
			ring(cpu);
}

static void ring_marked(void)
{
	unsigned marks = atomic_load(&marked);

	for (unsigned cpu = 0; cpu < cpus; cpu++)
		if (marks >> cpu & 1)
			ring(cpu);
}

/* Acknowledges a phase, and stores the next one as the last. */
static void acknowledge(unsigned cpu, unsigned phase)
{
	if (atomic_fetch_sub(&ack, 1) != 1)
		return;
	atomic_store(&ack, cpus);
	atomic_store(&state, phase + 1);
	if (way == SLEEPS)
		ring_all(cpu);
}

/* Takes part in a stop: four phases. */
static void take_part(unsigned cpu)
{
	unsigned acked = 0, step = 0;
	bool may_sleep = false;

	while (acked < 4) {
		bool is_set = way == SLEEPS && may_sleep;
		unsigned noted = is_set ? set_alarm(cpu) : 0;
		unsigned phase = atomic_load(&state);

		if (phase == acked && is_set) {
			sleep_on_alarm(cpu, noted);
			continue;
		}
		if (is_set)
			leave_alarm(cpu);
		if (phase == acked) {
			may_sleep = snooze(&step);
			continue;
		}
		acked = phase;
		step = 0;
		may_sleep = false;
		acknowledge(cpu, phase);
	}
	if (atomic_fetch_sub(&todo, 1) == 1)
		atomic_store(&done, 1);
}

static bool poll(unsigned cpu)
{
	if (!atomic_load(&queues[cpu].work))
		return false;
	atomic_store(&queues[cpu].work, 0);
	take_part(cpu);
	return true;
}

static bool try_gate(unsigned cpu)
{
	unsigned free = 0;

	return atomic_compare_exchange_strong(&gate, &free, cpu + 1);
}

/* One try for the gate with the alarm set, and a sleep where it was in vain and no work came. */
static bool try_gate_or_sleep(unsigned cpu)
{
	bool taken, found = false;
	unsigned noted;

	atomic_fetch_or(&marked, 1u << cpu);
	noted = set_alarm(cpu);
	taken = try_gate(cpu);
	if (!taken)
		found = poll(cpu);
	if (taken || found)
		leave_alarm(cpu);
	else
		sleep_on_alarm(cpu, noted);
	atomic_fetch_and(&marked, ~(1u << cpu));
	return taken;
}

static void take_gate(unsigned cpu)
{
	unsigned step = 0;

	while (!try_gate(cpu)) {
		poll(cpu);
		if (!snooze(&step) || way != SLEEPS_AT_GATE)
			continue;
		if (try_gate_or_sleep(cpu))
			return;
	}
}

static void stop_all(unsigned cpu)
{
	unsigned step;

	take_gate(cpu);
	atomic_store(&ack, cpus);
	atomic_store(&todo, cpus);
	atomic_store(&done, 0);
	atomic_store(&state, 1);
	for (unsigned to = 0; to < cpus; to++) {
		atomic_store(&queues[to].work, 1);
		if (way != POLLS)
			ring(to);
	}
	for (step = 0; !atomic_load(&done);) {
		poll(cpu);
		snooze(&step);
	}
	atomic_store(&gate, 0);
	if (way == SLEEPS_AT_GATE)
		ring_marked();
}

/* Stops all until it is told to end, and then polls until all sources have. */
static void be_source(unsigned cpu)
{
	unsigned step = 0;

	while (atomic_load(&stopping)) {
		double began = now(CLOCK_MONOTONIC), nanos;

		stop_all(cpu);
		nanos = now(CLOCK_MONOTONIC) - began;
		made[cpu].stops++;
		made[cpu].nanos += nanos;
		if (nanos > made[cpu].longest)
			made[cpu].longest = nanos;
	}
	atomic_fetch_add(&ended, 1);
	while (atomic_load(&ended) < sources) {
		poll(cpu);
		snooze(&step);
	}
	atomic_store(&over, 1);
	ring_all(cpu);
}

static void wait_for_works(unsigned cpu)
{
	unsigned step = 0;

	for (;;) {
		unsigned noted = way == POLLS ? 0 : set_alarm(cpu);
		bool is_over = atomic_load(&over), found = poll(cpu);

		if (way == POLLS)
			found ? (void)(step = 0) : (void)snooze(&step);
		else if (found || is_over)
			leave_alarm(cpu);
		else
			sleep_on_alarm(cpu, noted);
		if (is_over)
			return;
	}
}

static void *be_cpu(void *arg)
{
	unsigned cpu = (unsigned)(size_t)arg;

	cpu < sources ? be_source(cpu) : wait_for_works(cpu);
	return NULL;
}

int main(int argc, char **argv)
{
	pthread_t threads[MOST];
	unsigned long stops = 0;
	double nanos = 0, longest = 0;

	cpus = argc > 4 ? atoi(argv[1]) : 0;
	sources = argc > 4 ? atoi(argv[4]) : 0;
	if (cpus < 1 || cpus > MOST || sources < 1 || sources > cpus) {
		fprintf(stderr, "usage: %s CPUS WAY SECONDS SOURCES\n", argv[0]);
		return 2;
	}
	way = atoi(argv[2]);
	atomic_store(&stopping, 1);
	for (size_t cpu = 0; cpu < cpus; cpu++)
		if (pthread_create(&threads[cpu], NULL, be_cpu, (void *)cpu))
			return 1;
	usleep(atof(argv[3]) * 1e6);
	atomic_store(&stopping, 0);
	for (size_t cpu = 0; cpu < cpus; cpu++)
		pthread_join(threads[cpu], NULL);
	for (size_t cpu = 0; cpu < cpus; cpu++) {
		stops += made[cpu].stops;
		nanos += made[cpu].nanos;
		longest = made[cpu].longest > longest ? made[cpu].longest : longest;
	}
	printf("%u CPUs, way %d, %u sources: %lu stops, mean %.1f us, longest %.1f ms, processor time %.1f us a stop\n", cpus, way,
	       sources, stops, nanos / stops / 1e3, longest / 1e6, now(CLOCK_PROCESS_CPUTIME_ID) / stops / 1e3);
	return 0;
}
