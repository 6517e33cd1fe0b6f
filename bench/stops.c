/*
 * The steps of stops and patches in plain C, to compare times with: the same words with the same distances, the
 * same steps in the same order, the same stopper queues, the same waiting, all atomics sequentially consistent. No proof
 * covers this file, and it refuses less. No calls are queued here, so a CPU that handles finds no interrupt.
 *
 *   cc -O2 -pthread -o stops bench/stops.c
 *   ./stops time|count THREADS LIMIT [WORKLOAD]     as `load bench`
 *
 *   -DSHIFT=N    the words begin N words after the beginning of a cache line
 */
#define _GNU_SOURCE
#include <pthread.h>
#include <stdatomic.h>
#include "meter.h"

#ifndef SHIFT
#define SHIFT 0
#endif

enum { CPUS = 32, KEYS = 4, SITES = 16, LINE = 8 };
enum { ONE, MULTI, PATCH };
enum { PREPARE = 1, DISABLE_IRQ, RUN, EXIT };
enum { OFF, ON, UP, DOWN };
enum { KEY_TOP = 65535 };

typedef _Atomic uint64_t word;

/* Where the words of the stop table lie: the gate, the slots, the labels. */
enum {
	KIND, MASK, ACTIVE, FUNC, ARG,
	STATE = 2 * LINE, ACK = 3 * LINE, ROLL = 4 * LINE, TODO = 5 * LINE, RESULT, DONE = 7 * LINE,
	SLOT = LINE, SLOTS_APART = 8 * LINE,
	KEY = SLOT + CPUS * SLOTS_APART, ENTRY = KEY + KEYS, SITE = ENTRY + SITES, STOP_WORDS = SITE + SITES
};

/* Of the call table only what an idle handle touches. */
enum { INTR = CPUS * LINE, HAND = 2 * CPUS * LINE, CALL_WORDS = 3 * CPUS * LINE };

/* A stopper queue: its tail, its head and the stamps of its places, then the items. */
enum { TAIL = 16, HEAD = 32, STAMPS = 48, QUEUE_WORDS = STAMPS + CPUS, LAP = 64 };

struct work {
	uint32_t slot;
	uint8_t kind;
	uint32_t mask, active;
	uint16_t func;
	uint64_t arg;
};

struct queue {
	word words[QUEUE_WORDS];
	struct work items[CPUS];
};

/* A CPU and what it alone writes, with cache lines of its own. */
struct cpu {
	_Alignas(64) word *calls, *stops;
	uint32_t number;
	bool in_stop, irq_off;
	uint32_t slot;
	uint64_t kind, mask, active, acked, answer;
	uint64_t heard;
};

static _Alignas(64) struct queue queues[CPUS];
static uint32_t online;

static word *field(struct cpu *me, uint32_t slot, uint32_t f) { return &me->stops[SLOT + SLOTS_APART * slot + f]; }

/* The function of all stops. */
static int32_t run(struct cpu *me, uint16_t func, uint64_t arg)
{
	(void)func, (void)arg;
	me->heard += 1;
	return 0;
}

/* A stopper queue as crossbeam's ArrayQueue: false where it is full. */
static bool push(struct queue *q, struct work item)
{
	uint64_t tail = atomic_load(&q->words[TAIL]);
	uint32_t step = 0;
	for (;;) {
		uint64_t index = tail & (LAP - 1), stamp = atomic_load(&q->words[STAMPS + index]);
		if (tail == stamp) {
			uint64_t next = index + 1 < CPUS ? tail + 1 : tail - index + LAP;
			if (atomic_compare_exchange_strong(&q->words[TAIL], &tail, next)) {
				q->items[index] = item;
				atomic_store(&q->words[STAMPS + index], stamp + 1);
				return true;
			}
		} else if (tail >= LAP && stamp == tail - LAP + 1) {
			if (atomic_load(&q->words[HEAD]) == tail - LAP)
				return false;
			tail = atomic_load(&q->words[TAIL]);
		} else {
			snooze(&step);
			tail = atomic_load(&q->words[TAIL]);
		}
	}
}

/* Its front: false where it is empty. */
static bool pop(struct queue *q, struct work *item)
{
	uint64_t head = atomic_load(&q->words[HEAD]);
	uint32_t step = 0;
	for (;;) {
		uint64_t index = head & (LAP - 1), stamp = atomic_load(&q->words[STAMPS + index]);
		if (head + 1 == stamp) {
			uint64_t found = head, next = index + 1 < CPUS ? head + 1 : head - index + LAP;
			if (atomic_compare_exchange_strong(&q->words[HEAD], &found, next)) {
				*item = q->items[index];
				atomic_store(&q->words[STAMPS + index], head + LAP);
				return true;
			}
			head = found;
		} else if (stamp == head) {
			if (atomic_load(&q->words[TAIL]) == head)
				return false;
			head = atomic_load(&q->words[HEAD]);
		} else {
			snooze(&step);
			head = atomic_load(&q->words[HEAD]);
		}
	}
}

/* handle, where nobody calls */
static void handle(struct cpu *me)
{
	atomic_store(&me->calls[HAND + LINE * me->number], 1);
	atomic_exchange(&me->calls[INTR + LINE * me->number], 0);
	atomic_store(&me->calls[HAND + LINE * me->number], 0);
}

/* begin: opens the own slot, the roll last */
static void begin(struct cpu *me, const struct work *work)
{
	uint32_t s = me->number;
	uint64_t weight = __builtin_popcount(work->mask);
	atomic_store(field(me, s, KIND), work->kind);
	atomic_store(field(me, s, MASK), work->mask);
	atomic_store(field(me, s, ACTIVE), work->active);
	atomic_store(field(me, s, FUNC), work->func);
	atomic_store(field(me, s, ARG), work->arg);
	atomic_store(field(me, s, RESULT), 0);
	atomic_store(field(me, s, TODO), weight);
	atomic_store(field(me, s, DONE), 0);
	atomic_store(field(me, s, ACK), weight);
	atomic_store(field(me, s, STATE), PREPARE);
	atomic_store(field(me, s, ROLL), work->mask);
}

/* enter: false where the roll does not have this CPU */
static bool enter(struct cpu *me, uint32_t slot)
{
	uint64_t bit = 1u << me->number;
	if (!(atomic_fetch_and(field(me, slot, ROLL), ~bit) & bit))
		return false;
	me->slot = slot;
	me->kind = atomic_load(field(me, slot, KIND));
	me->mask = atomic_load(field(me, slot, MASK));
	me->active = atomic_load(field(me, slot, ACTIVE));
	me->acked = 0;
	me->answer = 0;
	me->in_stop = true;
	return true;
}

static void complete(struct cpu *me)
{
	if (atomic_fetch_sub(field(me, me->slot, TODO), 1) == 1)
		atomic_store(field(me, me->slot, DONE), 1);
	me->in_stop = false;
}

static void run_one(struct cpu *me)
{
	uint16_t func = atomic_load(field(me, me->slot, FUNC));
	uint64_t arg = atomic_load(field(me, me->slot, ARG));
	int32_t answer = run(me, func, arg);
	if (answer != 0)
		atomic_store(field(me, me->slot, RESULT), (uint32_t)answer);
	complete(me);
}

/* The patch of a stop: 1 where the count has no next one, else 0. */
static uint64_t patch(struct cpu *me)
{
	uint64_t key = atomic_load(field(me, me->slot, FUNC)), change = atomic_load(field(me, me->slot, ARG));
	uint64_t count = atomic_load(&me->stops[KEY + key]), next, plan[SITES][2], stores = 0;
	switch (change) {
	case OFF: next = 0; break;
	case ON: next = count > 0 ? count : 1; break;
	case UP: if (count == KEY_TOP) return 1; next = count + 1; break;
	default: if (count == 0) return 1; next = count - 1;
	}
	if (next == count)
		return 0;
	for (uint32_t i = 0; i < SITES && (next > 0) != (count > 0); i++) {
		uint64_t entry = atomic_load(&me->stops[ENTRY + i]);
		if (entry == 0)
			break;
		if ((entry - 1) >> 1 == key) {
			plan[stores][0] = i;
			plan[stores++][1] = (next > 0) ^ ((entry - 1) & 1);
		}
	}
	atomic_store(&me->stops[KEY + key], next);
	for (uint64_t i = 0; i < stores; i++)
		atomic_store(&me->stops[SITE + plan[i][0]], plan[i][1]);
	return 0;
}

/* advance: one turn of the loop of multi_cpu_stop; true where this CPU has left */
static bool advance(struct cpu *me)
{
	uint64_t state = atomic_load(field(me, me->slot, STATE));
	if (state == me->acked)
		return false;
	if (state == DISABLE_IRQ)
		me->irq_off = true;
	if (state == RUN && me->active >> me->number & 1) {
		if (me->kind == PATCH) {
			me->answer = patch(me);
		} else {
			uint16_t func = atomic_load(field(me, me->slot, FUNC));
			uint64_t arg = atomic_load(field(me, me->slot, ARG));
			me->answer = (uint32_t)run(me, func, arg);
		}
	}
	uint64_t found = atomic_fetch_sub(field(me, me->slot, ACK), 1);
	me->acked = state;
	if (found == 1) {
		atomic_store(field(me, me->slot, ACK), __builtin_popcountll(me->mask));
		atomic_store(field(me, me->slot, STATE), state + 1);
	}
	if (state != EXIT)
		return false;
	me->irq_off = false;
	return true;
}

/* turn: handles where interrupts are on, then one turn of the work in hand; true where that is complete */
static bool turn(struct cpu *me)
{
	if (!me->irq_off)
		handle(me);
	if (!me->in_stop)
		return false;
	if (me->kind == ONE) {
		run_one(me);
		return true;
	}
	if (!advance(me))
		return false;
	if (me->answer != 0)
		atomic_store(field(me, me->slot, RESULT), me->answer);
	complete(me);
	return true;
}

static bool take_work(struct cpu *me)
{
	struct work item;
	if (!me->in_stop && pop(&queues[me->number], &item))
		enter(me, item.slot);
	return me->in_stop;
}

static void poll(struct cpu *me)
{
	uint32_t step = 0;
	turn(me);
	if (take_work(me))
		while (!turn(me))
			snooze(&step);
}

static void take_gate(struct cpu *me)
{
	uint32_t step = 0;
	for (;;) {
		uint64_t free = 0;
		if (atomic_compare_exchange_strong(&me->stops[0], &free, me->number + 1))
			return;
		poll(me);
		snooze(&step);
	}
}

static void open_gate(struct cpu *me) { atomic_store(&me->stops[0], 0); }

static int32_t collect(struct cpu *me)
{
	uint32_t step = 0;
	while (atomic_load(field(me, me->number, DONE)) == 0) {
		poll(me);
		snooze(&step);
	}
	return (int32_t)atomic_load(field(me, me->number, RESULT));
}

static void put_to_all(struct cpu *me, const struct work *work)
{
	for (uint32_t left = work->mask; left != 0; left &= left - 1) {
		uint32_t step = 0;
		while (!push(&queues[__builtin_ctz(left)], *work)) {
			turn(me);
			snooze(&step);
		}
	}
}

static int32_t stop_machine(struct cpu *me, uint16_t func, uint64_t arg)
{
	struct work work = { me->number, MULTI, online, online & -online, func, arg };
	take_gate(me);
	begin(me, &work);
	put_to_all(me, &work);
	int32_t result = collect(me);
	open_gate(me);
	return result;
}

static int32_t stop_one(struct cpu *me, uint32_t dst, uint16_t func, uint64_t arg)
{
	struct work work = { me->number, ONE, 1u << dst, 1u << dst, func, arg };
	take_gate(me);
	begin(me, &work);
	put_to_all(me, &work);
	open_gate(me);
	return collect(me);
}

static int32_t patch_key(struct cpu *me, uint32_t key, uint64_t change)
{
	struct work work = { me->number, PATCH, online, online & -online, (uint16_t)key, change };
	begin(me, &work);
	put_to_all(me, &work);
	uint32_t step = 0;
	struct work item;
	for (bool ran_own = !(work.mask >> me->number & 1); !ran_own; snooze(&step)) {
		turn(me);
		if (!pop(&queues[me->number], &item) || !enter(me, item.slot))
			continue;
		ran_own = item.slot == me->number;
		for (uint32_t inner = 0; !turn(me); snooze(&inner))
			;
	}
	for (step = 0; atomic_load(field(me, me->number, DONE)) == 0; snooze(&step))
		turn(me);
	return (int32_t)atomic_load(field(me, me->number, RESULT));
}

static bool set_key(struct cpu *me, uint32_t key, bool on)
{
	take_gate(me);
	if ((atomic_load(&me->stops[KEY + key]) > 0) == on) {
		open_gate(me);
		return false;
	}
	patch_key(me, key, on ? ON : OFF);
	open_gate(me);
	return true;
}

/* A change of a count by one without a stop, tried again while others change it: 1 where it is made, 0 where the key
   would turn, -1 at the end of the range. */
static int nudge(struct cpu *me, uint32_t key, bool up)
{
	uint32_t step = 0;
	for (;;) {
		uint64_t count = atomic_load(&me->stops[KEY + key]), found = count, next = up ? count + 1 : count - 1;
		if (count == (up ? KEY_TOP : 0))
			return -1;
		if ((next > 0) != (count > 0))
			return 0;
		if (atomic_compare_exchange_strong(&me->stops[KEY + key], &found, next))
			return 1;
		snooze(&step);
	}
}

/* key_inc and key_dec: 1 where there was a patch, -1 at the end of the range */
static int count_key(struct cpu *me, uint32_t key, bool up)
{
	if (me->in_stop || key >= KEYS)
		return -1;
	int moved = nudge(me, key, up);
	if (moved != 0)
		return moved < 0 ? -1 : 0;
	take_gate(me);
	moved = nudge(me, key, up);
	int result = moved != 0 ? (moved < 0 ? -1 : 0) : patch_key(me, key, up ? UP : DOWN) == 0 ? 1 : -1;
	open_gate(me);
	return result;
}

/* The workloads; add-1 and add are key-inc-1 and key-inc with a plain atomic increment or decrement in place of each change. */
enum { BATCH = 10, SHORT_BATCH = 100, GO_ON = 0, COUNT = 1, END = 2 };
enum { STOP, STOP_ONE, SET_KEY, COUNT_ONE, COUNT_ALL, IDLE, ADD_ONE, ADD_ALL, WORKLOADS };
static const char *const names[WORKLOADS] = { "stop", "stop-one", "set-key", "key-inc-1", "key-inc", "idle", "add-1", "add" };
static _Alignas(64) _Atomic uint64_t sign;
static _Alignas(64) struct cpu cpus[CPUS];
static int workload;

/* Handles and turns; then runs a work of its queue, if there is one. */
static bool help_once(struct cpu *me)
{
	turn(me);
	if (!take_work(me))
		return false;
	poll(me);
	return true;
}

static void answer(struct cpu *me, uint64_t until)
{
	uint32_t step = 0;
	while (atomic_load(&sign) < until) {
		if (help_once(me))
			step = 0;
		else
			snooze(&step);
	}
}

static void count_batch(struct cpu *me)
{
	for (int i = 0; i < SHORT_BATCH; i++)
		if (count_key(me, 0, i % 2 == 0) == 0)
			me->heard += 1;
}

static void add_batch(struct cpu *me)
{
	for (int i = 0; i < SHORT_BATCH; i++) {
		if (i % 2 == 0)
			atomic_fetch_add(&me->stops[KEY], 1);
		else
			atomic_fetch_sub(&me->stops[KEY], 1);
	}
	me->heard += SHORT_BATCH;
}

static void stop_batch(struct cpu *me)
{
	for (int i = 0; i < BATCH; i++) {
		if (workload == STOP)
			stop_machine(me, 3, 4);
		else if (workload == STOP_ONE)
			stop_one(me, 1, 3, 4);
		else
			set_key(me, 0, i % 2 == 0);
	}
}

/* One batch: how many operations it has. */
static uint32_t run_batch(struct cpu *me)
{
	switch (workload) {
	case COUNT_ONE: case COUNT_ALL:
		count_batch(me);
		return SHORT_BATCH;
	case ADD_ONE: case ADD_ALL:
		add_batch(me);
		return SHORT_BATCH;
	case IDLE:
		for (int i = 0; i < SHORT_BATCH; i++)
			help_once(me);
		return SHORT_BATCH;
	default:
		stop_batch(me);
		return BATCH;
	}
}

static void *help(void *given)
{
	struct cpu *me = given;
	if (workload != COUNT_ALL && workload != ADD_ALL) {
		answer(me, END);
		return NULL;
	}
	answer(me, COUNT);
	if (meter.counts)
		for (uint64_t i = 0; i < meter.limit; i += SHORT_BATCH)
			run_batch(me);
	else
		while (atomic_load(&sign) != END)
			run_batch(me);
	return NULL;
}

static void lead(struct cpu *me)
{
	if (workload == COUNT_ONE || workload == COUNT_ALL || workload == ADD_ONE || workload == ADD_ALL) {
		set_key(me, 0, true);
		atomic_store(&sign, COUNT);
		lap(0);
	}
	while (lap(run_batch(me)))
		;
	atomic_store(&sign, END);
}

static void run_threads(uint32_t threads)
{
	pthread_t helpers[CPUS];
	for (uint32_t i = 1; i < threads; i++)
		if (pthread_create(&helpers[i], NULL, help, &cpus[i]))
			exit(1);
	begin_meter();
	lead(&cpus[0]);
	for (uint32_t i = 1; i < threads; i++)
		pthread_join(helpers[i], NULL);
}

static void report(uint32_t asked)
{
	static _Alignas(64) word call_words[CALL_WORDS + LINE], stop_words[STOP_WORDS + LINE];
	bool alone = workload == COUNT_ONE || workload == ADD_ONE || workload == IDLE;
	uint32_t threads = alone ? 1 : workload == STOP_ONE ? 2 : asked;
	uint64_t calls = 0;
	memset(call_words, 0, sizeof call_words);
	memset(stop_words, 0, sizeof stop_words);
	memset(cpus, 0, sizeof cpus);
	memset(queues, 0, sizeof queues);
	online = (1u << threads) - 1;
	for (uint32_t c = 0; c < CPUS; c++) {
		cpus[c].calls = &call_words[SHIFT];
		cpus[c].stops = &stop_words[SHIFT];
		cpus[c].number = c;
		for (uint32_t i = 0; i < CPUS; i++)
			queues[c].words[STAMPS + i] = i;
	}
	/* Key 0 with two sites, as (0, off branch) and (0, on branch). */
	stop_words[SHIFT + ENTRY] = 1;
	stop_words[SHIFT + ENTRY + 1] = 2;
	stop_words[SHIFT + SITE + 1] = 1;
	sign = GO_ON;
	run_threads(threads);
	for (uint32_t c = 0; c < CPUS; c++)
		calls += cpus[c].heard;
	print_line(names[workload], threads, calls);
}

int main(int argc, char **argv)
{
	uint32_t threads = read_words("stops", argc, argv);
	for (workload = 0; workload < WORKLOADS; workload++)
		if (argc < 5 || strcmp(argv[4], names[workload]) == 0)
			report(threads);
	return 0;
}
