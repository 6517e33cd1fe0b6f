/*
 * The steps of cross-processor calls in plain C, to compare times with: the same words, the same steps in the same
 * order, the same waiting, all atomics sequentially consistent. No proof covers this file, and it refuses less.
 *
 *   cc -O2 -pthread -o calls bench/calls.c
 *   ./calls time|count THREADS LIMIT [WORKLOAD]     as `load bench`
 *
 * Other layouts and steps, to see what they cost:
 *   -DAPART=N    head, interrupt and handling words begin N words apart (1: side by side)
 *   -DSTRIDE=N   records begin N words apart (4: side by side)
 *   -DROWS=N     the tallies of two CPUs begin N words apart (64: side by side)
 *   -DSHIFT=N    the words begin N words after the beginning of a cache line
 *   -DLOOK       a CPU looks at its interrupt word first
 */
#define _GNU_SOURCE
#include <pthread.h>
#include <stdatomic.h>
#include "meter.h"

enum { CPUS = 32, FIRST_TARGETS = 8, FIRST_OF_ONE = 12, MORE_OF_ONE = CPUS - FIRST_TARGETS };
enum { FIRST_RECORDS = CPUS * FIRST_OF_ONE, RECORDS = FIRST_RECORDS + CPUS * MORE_OF_ONE };
enum { LOCK = 1, ASYNC = 0, SYNC = 16 };
enum { FUNC = 7, INFO = 42 };
enum { SYNC_RECORD = 0, ASYNC_RECORD = 1, USER_RECORD = 10 };

#ifndef APART
#define APART 8
#endif
#ifndef STRIDE
#define STRIDE 16
#endif
#ifndef ROWS
#define ROWS 72
#endif
#ifndef SHIFT
#define SHIFT 0
#endif

/* Where the words lie. */
enum {
	LINE = 8,
	HEAD = 0,
	INTR = HEAD + CPUS * APART,
	HAND = INTR + CPUS * APART,
	QUEUED = HAND + CPUS * APART,
	RAN = QUEUED + CPUS,
	RECORD = QUEUED + CPUS * ROWS,
	WORDS = RECORD + STRIDE * RECORDS
};

typedef _Atomic uint64_t word;

/* A CPU and what it alone writes, with cache lines of its own. */
struct cpu {
	_Alignas(64) word *words;
	uint32_t number;
	uint64_t queued[CPUS];
	uint64_t ran[CPUS];
	uint64_t heard;
};

static word *head_of(struct cpu *me, uint32_t c) { return &me->words[HEAD + APART * c]; }
static word *intr_of(struct cpu *me, uint32_t c) { return &me->words[INTR + APART * c]; }
static word *hand_of(struct cpu *me, uint32_t c) { return &me->words[HAND + APART * c]; }
static word *queued_of(struct cpu *me, uint32_t d) { return &me->words[QUEUED + ROWS * me->number + d]; }
static word *ran_of(struct cpu *me, uint32_t s) { return &me->words[RAN + ROWS * me->number + s]; }
static word *record_of(struct cpu *me, uint32_t r) { return &me->words[RECORD + STRIDE * r]; }

/* The record of this source with the local number k, and the source of a record. */
static uint32_t id_of(uint32_t source, uint32_t k)
{
	return k < FIRST_OF_ONE ? FIRST_OF_ONE * source + k : FIRST_RECORDS + MORE_OF_ONE * source + (k - FIRST_OF_ONE);
}

static uint32_t owner_of(uint32_t id)
{
	return id < FIRST_RECORDS ? id / FIRST_OF_ONE : (id - FIRST_RECORDS) / MORE_OF_ONE;
}

/* The record for calls to many with this destination. */
static uint32_t many_record(uint32_t to) { return to < FIRST_TARGETS ? to + 2 : to + 4; }

/* The function of all calls. */
static void call(struct cpu *me, uint32_t source, uint16_t func, uint64_t info)
{
	(void)source, (void)func, (void)info;
	me->heard += 1;
}

/* done k */
static bool is_done(struct cpu *me, uint32_t k)
{
	return !(atomic_load(&record_of(me, id_of(me->number, k))[0]) & LOCK);
}

/* post k dst class func info: 1 where an interrupt is owed, 0 where not, -1 where the record is locked or the tries
 * are used up */
static int post(struct cpu *me, uint32_t k, uint32_t dst, uint64_t class, uint32_t tries)
{
	uint32_t id = id_of(me->number, k), step = 0;
	word *record = record_of(me, id), *queued = queued_of(me, dst);
	if (atomic_load(&record[0]) & LOCK)
		return -1;
	atomic_store(&record[0], LOCK + class);
	atomic_store(&record[1], FUNC);
	atomic_store(&record[2], INFO);
	atomic_store(queued, me->queued[dst] + 1);
	uint64_t head = atomic_load(head_of(me, dst));
	for (uint32_t i = 0; i < tries; i++) {
		uint64_t found = head;
		atomic_store(&record[3], head);
		if (atomic_compare_exchange_strong(head_of(me, dst), &found, id + 1)) {
			me->queued[dst] += 1;
			return head == 0;
		}
		head = found;
		snooze(&step);
	}
	atomic_store(queued, me->queued[dst]);
	atomic_store(&record[0], 0);
	return -1;
}

/* send dst */
static void send(struct cpu *me, uint32_t dst) { atomic_store(intr_of(me, dst), 1); }

static void count_one(struct cpu *me, uint32_t source)
{
	me->ran[source] += 1;
	atomic_store(ran_of(me, source), me->ran[source]);
}

/* Turns the chain of a batch: its oldest record, as a link, and how many it has. */
static uint64_t reverse(struct cpu *me, uint64_t link, uint32_t *calls)
{
	uint64_t newer = 0;
	while (link != 0) {
		word *record = record_of(me, link - 1);
		uint64_t older = atomic_load(&record[3]);
		atomic_store(&record[3], newer);
		newer = link;
		link = older;
		*calls += 1;
	}
	return newer;
}

/* First pass: runs the SYNC calls, and takes their records out of the chain: the first record that is left. */
static uint64_t run_sync(struct cpu *me, uint64_t first)
{
	uint64_t last = 0, next;
	for (uint64_t link = first; link != 0; link = next) {
		word *record = record_of(me, link - 1);
		next = atomic_load(&record[3]);
		if (!(atomic_load(&record[0]) & SYNC)) {
			last = link;
			continue;
		}
		uint16_t func = atomic_load(&record[1]);
		uint64_t info = atomic_load(&record[2]);
		if (last == 0)
			first = next;
		else
			atomic_store(&record_of(me, last - 1)[3], next);
		atomic_store(hand_of(me, me->number), link + 1);
		call(me, owner_of(link - 1), func, info);
		count_one(me, owner_of(link - 1));
		atomic_store(&record[0], 0);
	}
	return first;
}

/* Second pass: runs the ASYNC calls that are left. */
static void run_async(struct cpu *me, uint64_t first)
{
	uint64_t next;
	for (uint64_t link = first; link != 0; link = next) {
		word *record = record_of(me, link - 1);
		next = atomic_load(&record[3]);
		uint16_t func = atomic_load(&record[1]);
		uint64_t info = atomic_load(&record[2]);
		atomic_store(&record[0], 0);
		call(me, owner_of(link - 1), func, info);
		count_one(me, owner_of(link - 1));
	}
}

/* handle: how many calls ran */
static uint32_t handle(struct cpu *me)
{
	uint32_t calls = 0;
#ifdef LOOK
	if (atomic_load(intr_of(me, me->number)) == 0)
		return 0;
#endif
	atomic_store(hand_of(me, me->number), 1);
	if (atomic_exchange(intr_of(me, me->number), 0) == 0) {
		atomic_store(hand_of(me, me->number), 0);
		return 0;
	}
	uint64_t oldest = reverse(me, atomic_exchange(head_of(me, me->number), 0), &calls);
	run_async(me, run_sync(me, oldest));
	atomic_store(hand_of(me, me->number), 0);
	return calls;
}

/* Waits for a record, and handles the own interrupts meanwhile. */
static void wait_for(struct cpu *me, uint32_t k)
{
	uint32_t step = 0;
	while (!is_done(me, k)) {
		handle(me);
		snooze(&step);
	}
}

static void call_single(struct cpu *me, uint32_t dst, bool wait)
{
	uint32_t k = wait ? SYNC_RECORD : ASYNC_RECORD;
	wait_for(me, k);
	if (post(me, k, dst, wait ? SYNC : ASYNC, UINT32_MAX) == 1)
		send(me, dst);
	if (wait)
		wait_for(me, k);
}

static void call_many(struct cpu *me, uint32_t mask)
{
	uint32_t owed = 0;
	for (uint32_t left = mask; left != 0; left &= left - 1) {
		uint32_t c = __builtin_ctz(left);
		wait_for(me, many_record(c));
		if (post(me, many_record(c), c, SYNC, UINT32_MAX) == 1)
			owed |= 1u << c;
	}
	for (; owed != 0; owed &= owed - 1)
		send(me, __builtin_ctz(owed));
	for (uint32_t left = mask; left != 0; left &= left - 1)
		wait_for(me, many_record(__builtin_ctz(left)));
}

/* The workloads. */
enum { ROUNDS = 100, BATCH = 100, BEGIN = 1, STOP = 2 };
enum { POST_1, POST_8, TRIP, ASYNCS, MANY, WORKLOADS };
static const char *const names[WORKLOADS] = { "post-1", "post-8", "trip", "async", "many" };
static _Alignas(64) _Atomic uint64_t sign;
static _Atomic uint64_t done;
static _Alignas(64) struct cpu cpus[CPUS];
static int workload;
static uint64_t times;

static void alone_one(void)
{
	uint32_t handled;
	do {
		handled = 0;
		for (int i = 0; i < ROUNDS; i++) {
			if (post(&cpus[1], USER_RECORD, 0, ASYNC, 1) == 1)
				send(&cpus[1], 0);
			handled += handle(&cpus[0]);
		}
	} while (lap(handled));
}

static void alone(uint32_t sources, uint32_t records)
{
	uint32_t handled;
	do {
		handled = 0;
		for (int i = 0; i < ROUNDS; i++) {
			for (uint32_t s = 1; s <= sources; s++)
				for (uint32_t k = USER_RECORD; k < USER_RECORD + records; k++)
					if (post(&cpus[s], k, 0, ASYNC, 1) == 1)
						send(&cpus[s], 0);
			handled += handle(&cpus[0]);
		}
	} while (lap(handled));
}

static void *help(void *given)
{
	struct cpu *me = given;
	uint32_t step = 0;
	if (workload == ASYNCS) {
		while (atomic_load(&sign) == 0)
			snooze(&step);
		for (uint64_t i = 0; i < times && atomic_load(&sign) != STOP; i++)
			call_single(me, 0, false);
		atomic_fetch_add(&done, 1);
		return NULL;
	}
	while (atomic_load(&sign) != STOP) {
		if (handle(me) > 0)
			step = 0;
		else
			snooze(&step);
	}
	return NULL;
}

static void handle_all(uint64_t sources)
{
	uint32_t since = 0, step = 0;
	for (;;) {
		bool over = atomic_load(&done) >= sources;
		uint32_t ran = handle(&cpus[0]);
		since += ran;
		if (since >= BATCH || over) {
			if (!lap(since))
				atomic_store(&sign, STOP);
			since = 0;
		}
		if (over)
			return;
		if (ran > 0)
			step = 0;
		else
			snooze(&step);
	}
}

static void call_and_wait(uint32_t mask)
{
	do {
		for (int i = 0; i < BATCH; i++) {
			if (mask)
				call_many(&cpus[0], mask);
			else
				call_single(&cpus[0], 1, true);
		}
	} while (lap(BATCH));
	atomic_store(&sign, STOP);
}

static void run_threads(uint32_t threads)
{
	pthread_t helpers[CPUS];
	times = meter.counts ? meter.limit / (threads - 1) : UINT64_MAX;
	for (uint32_t i = 1; i < threads; i++)
		if (pthread_create(&helpers[i], NULL, help, &cpus[i]))
			exit(1);
	atomic_store(&sign, BEGIN);
	if (workload == ASYNCS)
		handle_all(threads - 1);
	else
		call_and_wait(workload == MANY ? (1u << threads) - 2 : 0);
	for (uint32_t i = 1; i < threads; i++)
		pthread_join(helpers[i], NULL);
}

static void report(uint32_t asked)
{
	static _Alignas(64) word table[WORDS + LINE];
	word *words = &table[SHIFT];
	uint32_t threads = workload <= POST_8 ? 1 : workload == TRIP ? 2 : asked;
	uint64_t calls = 0;
	memset(table, 0, sizeof table);
	memset(cpus, 0, sizeof cpus);
	for (uint32_t c = 0; c < CPUS; c++) {
		cpus[c].words = words;
		cpus[c].number = c;
	}
	sign = done = 0;
	begin_meter();
	if (workload == POST_1)
		alone_one();
	else if (workload == POST_8)
		alone(4, 2);
	else
		run_threads(threads);
	for (uint32_t c = 0; c < CPUS; c++)
		calls += cpus[c].heard;
	print_line(names[workload], threads, calls);
}

int main(int argc, char **argv)
{
	uint32_t threads = read_words("calls", argc, argv);
	for (workload = 0; workload < WORKLOADS; workload++)
		if (argc < 5 || strcmp(argv[4], names[workload]) == 0)
			report(threads);
	return 0;
}
