/*
 * Calls and stops by smp_tables.h, beside what a program in C uses in their place, in one run and with the same batches. No
 * proof covers this file.
 *
 *   cc -O2 -pthread $(pkg-config --cflags smp_tables) -o tables bench/tables.c $(pkg-config --libs smp_tables)
 *   ./tables time|count THREADS LIMIT [WORKLOAD]     as `load bench`; THREADS up to 7
 *
 * With -DURCU and -lurcu-memb there are two workloads of liburcu more. One thread leads, and the others answer. An operation is:
 *
 *   trip           a call with wait to a CPU that polls; trip-condvar: the same by a mutex and two condition variables
 *   many           a call with wait to all others; many-membarrier: the system call; many-rcu: synchronize_rcu
 *   async          a call without wait, that all others make and the leader runs; async-condvar: an item of a queue with a mutex
 *                  and condition variables; async-rcu: a call_rcu, the others being readers
 *   stop           a stop of all, the function on the leader; stop-barrier: a flag that all poll, and twice a pthread barrier
 */
#define _GNU_SOURCE
#include <linux/membarrier.h>
#include <pthread.h>
#ifdef URCU
#define _LGPL_SOURCE
#include <urcu/urcu-memb.h>
#endif
#include "meter.h"
#include "smp_tables.h"

enum { MOST = 7, BATCH = 100, SHORT_BATCH = 10, FUNC = 7, ROOM = 256 };

static uint32_t threads;
static _Alignas(64) uint32_t over;
static smp_crew crew;
static smp_cpu cpus[MOST];
static uint64_t ran;

static int is_over(void) { return __atomic_load_n(&over, __ATOMIC_SEQ_CST) != 0; }

static void must(int holds, const char *what)
{
	if (!holds)
		fprintf(stderr, "tables: %s\n", what), exit(1);
}

/* -- smp_tables.h: the context of a seat counts what it has run */
static int32_t run(void *context, uint32_t me, const smp_call *call)
{
	(void)me, (void)call;
	*(uint64_t *)context += 1;
	return 0;
}

static void lead_trip(smp_seat *s)
{
	do
		for (int i = 0; i < BATCH; i++)
			must(smp_call_single(s, 1, FUNC, 42, 1) == 0, "call_single");
	while (lap(BATCH));
}

static void lead_many(smp_seat *s)
{
	do
		for (int i = 0; i < BATCH; i++)
			must(smp_call_many(s, crew.online, FUNC, 42, 1) == 0, "call_many");
	while (lap(BATCH));
}

static void lead_async(smp_seat *s)
{
	uint64_t *heard = s->context, seen = *heard;
	uint32_t step = 0;
	for (;;) {
		if (smp_poll(s) == 1)
			step = 0;
		else
			snooze(&step);
		if (*heard - seen >= BATCH) {
			uint32_t new_ones = (uint32_t)(*heard - seen);
			seen = *heard;
			if (!lap(new_ones))
				return;
		}
	}
}

static void lead_stop(smp_seat *s)
{
	int32_t answer;
	do
		for (int i = 0; i < SHORT_BATCH; i++)
			must(smp_stop_machine(s, 1, FUNC, 42, &answer) == 0, "stop_machine");
	while (lap(SHORT_BATCH));
}

static void answer_calls(smp_seat *s)
{
	for (uint32_t step = 0; !is_over();) {
		if (smp_poll(s) == 1)
			step = 0;
		else
			snooze(&step);
	}
}

static void make_async(smp_seat *s)
{
	while (!is_over())
		must(smp_call_single(s, 0, FUNC, 42, 0) == 0, "call_single without wait");
}

/* -- a mutex with condition variables */
static pthread_mutex_t lock = PTHREAD_MUTEX_INITIALIZER;
static pthread_cond_t asks = PTHREAD_COND_INITIALIZER, answers = PTHREAD_COND_INITIALIZER;
static uint64_t asked, answered, items[ROOM];
static uint32_t length;

static void lead_trip_condvar(smp_seat *s)
{
	(void)s;
	do
		for (int i = 0; i < BATCH; i++) {
			pthread_mutex_lock(&lock);
			asked++;
			pthread_cond_signal(&asks);
			while (answered != asked)
				pthread_cond_wait(&answers, &lock);
			pthread_mutex_unlock(&lock);
		}
	while (lap(BATCH));
}

static void answer_condvar(smp_seat *s)
{
	(void)s;
	pthread_mutex_lock(&lock);
	while (!is_over()) {
		while (answered == asked && !is_over())
			pthread_cond_wait(&asks, &lock);
		ran += answered != asked;
		answered = asked;
		pthread_cond_signal(&answers);
	}
	pthread_mutex_unlock(&lock);
}

static void lead_async_condvar(smp_seat *s)
{
	uint32_t heard = 0;
	(void)s;
	for (;;) {
		pthread_mutex_lock(&lock);
		while (length == 0)
			pthread_cond_wait(&asks, &lock);
		for (uint32_t i = 0; i < length; i++)
			ran += items[i] == 42;
		heard += length;
		length = 0;
		pthread_cond_broadcast(&answers);
		pthread_mutex_unlock(&lock);
		if (heard >= BATCH) {
			if (!lap(heard))
				return;
			heard = 0;
		}
	}
}

static void make_async_condvar(smp_seat *s)
{
	(void)s;
	while (!is_over()) {
		pthread_mutex_lock(&lock);
		while (length == ROOM && !is_over())
			pthread_cond_wait(&answers, &lock);
		if (length < ROOM)
			items[length++] = 42;
		pthread_cond_signal(&asks);
		pthread_mutex_unlock(&lock);
	}
}

/* -- the system call membarrier, while the others run */
static void lead_membarrier(smp_seat *s)
{
	(void)s;
	must(syscall(SYS_membarrier, MEMBARRIER_CMD_REGISTER_PRIVATE_EXPEDITED, 0, 0) == 0, "membarrier");
	do
		for (int i = 0; i < BATCH; i++)
			must(syscall(SYS_membarrier, MEMBARRIER_CMD_PRIVATE_EXPEDITED, 0, 0) == 0, "membarrier");
	while (lap(BATCH));
}

static void spin(smp_seat *s)
{
	(void)s;
	for (uint32_t step = 0; !is_over();)
		snooze(&step);
}

/* -- a barrier, at which all meet whom a flag asks to */
static pthread_barrier_t barrier;
static _Alignas(64) uint32_t stops;

static void lead_barrier(smp_seat *s)
{
	(void)s;
	do
		for (int i = 0; i < SHORT_BATCH; i++) {
			__atomic_fetch_add(&stops, 1, __ATOMIC_SEQ_CST);
			pthread_barrier_wait(&barrier);
			ran++;
			pthread_barrier_wait(&barrier);
		}
	while (lap(SHORT_BATCH));
}

static void answer_barrier(smp_seat *s)
{
	uint32_t seen = 0, step = 0;
	(void)s;
	while (!is_over() || __atomic_load_n(&stops, __ATOMIC_SEQ_CST) != seen) {
		if (__atomic_load_n(&stops, __ATOMIC_SEQ_CST) == seen) {
			snooze(&step);
			continue;
		}
		pthread_barrier_wait(&barrier);
		pthread_barrier_wait(&barrier);
		seen++;
		step = 0;
	}
}

#ifdef URCU
static struct rcu_head heads[BATCH];

static void reclaim(struct rcu_head *head)
{
	(void)head;
	ran++;
}

static void lead_rcu(smp_seat *s)
{
	(void)s;
	do
		for (int i = 0; i < BATCH; i++)
			urcu_memb_synchronize_rcu();
	while (lap(BATCH));
}

static void lead_call_rcu(smp_seat *s)
{
	(void)s;
	urcu_memb_register_thread();
	do {
		for (int i = 0; i < BATCH; i++)
			urcu_memb_call_rcu(&heads[i], reclaim);
		urcu_memb_barrier();
	} while (lap(BATCH));
	urcu_memb_unregister_thread();
}

static void read_rcu(smp_seat *s)
{
	(void)s;
	urcu_memb_register_thread();
	for (uint32_t step = 0; !is_over();) {
		urcu_memb_read_lock();
		urcu_memb_read_unlock();
		snooze(&step);
	}
	urcu_memb_unregister_thread();
}
#endif

/* -- the workloads: how many threads take part, 0 for all, and what the leader and the others do */
static const struct workload {
	const char *name;
	uint32_t threads;
	void (*lead)(smp_seat *s), (*help)(smp_seat *s);
} workloads[] = {
	{ "trip", 2, lead_trip, answer_calls },
	{ "trip-condvar", 2, lead_trip_condvar, answer_condvar },
	{ "many", 0, lead_many, answer_calls },
	{ "many-membarrier", 0, lead_membarrier, spin },
#ifdef URCU
	{ "many-rcu", 0, lead_rcu, read_rcu },
#endif
	{ "async", 0, lead_async, make_async },
	{ "async-condvar", 0, lead_async_condvar, make_async_condvar },
#ifdef URCU
	{ "async-rcu", 0, lead_call_rcu, read_rcu },
#endif
	{ "stop", 0, lead_stop, answer_calls },
	{ "stop-barrier", 0, lead_barrier, answer_barrier },
};

struct helper {
	const struct workload *workload;
	smp_seat seat;
	uint64_t heard;
	char apart[64];
};

static void *help(void *arg)
{
	struct helper *h = arg;
	h->workload->help(&h->seat);
	return NULL;
}

/* The others end once they have seen the sign, whatever they wait for. */
static void end_others(void)
{
	pthread_mutex_lock(&lock);
	__atomic_store_n(&over, 1, __ATOMIC_SEQ_CST);
	pthread_cond_broadcast(&asks);
	pthread_cond_broadcast(&answers);
	pthread_mutex_unlock(&lock);
}

static void measure(const struct workload *w, uint32_t all)
{
	static struct helper helpers[MOST];
	uint32_t n = w->threads ? w->threads : all, c;
	pthread_t ids[MOST];
	memset(helpers, 0, sizeof helpers);
	memset(cpus, 0, sizeof cpus);
	over = length = stops = 0;
	asked = answered = ran = 0;
	must(smp_start(&crew, n, (1u << n) - 1, cpus, n) == 0, "start");
	must(pthread_barrier_init(&barrier, NULL, n) == 0, "barrier");
	for (c = 0; c < n; c++) {
		helpers[c].workload = w;
		helpers[c].seat = smp_sit(&crew, &cpus[c], c, run, &helpers[c].heard);
	}
	for (c = 1; c < n; c++)
		must(pthread_create(&ids[c], NULL, help, &helpers[c]) == 0, "pthread_create");
	begin_meter();
	w->lead(&helpers[0].seat);
	end_others();
	for (c = 1; c < n; c++) {
		/* Who waits for the leader's next poll gets it. */
		while (pthread_tryjoin_np(ids[c], NULL) != 0)
			smp_poll(&helpers[0].seat);
	}
	for (c = 0; c < n; c++) {
		ran += helpers[c].heard;
		must(smp_close(&helpers[c].seat.cpu) == 0, "close");
	}
	pthread_barrier_destroy(&barrier);
	print_line(w->name, n, ran);
}

int main(int argc, char **argv)
{
	threads = read_words("tables", argc, argv);
	for (size_t i = 0; i < sizeof workloads / sizeof *workloads; i++)
		if (argc < 5 || strcmp(argv[4], workloads[i].name) == 0)
			measure(&workloads[i], threads);
#ifndef URCU
	fprintf(stderr, "tables: built without liburcu\n");
#endif
	return 0;
}
