/*
 * A wake-up in plain C, to compare times with: one thread asks another, which sleeps where nothing was asked, and polls until
 * it has answered, as `wake` of `load bench`. No proof covers this file.
 *
 *   cc -O2 -pthread -o wake bench/wake.c
 *   ./wake time|count 2 LIMIT [WORKLOAD]
 *
 * `wake-futex` sleeps by a futex on the word that is asked by; who asks makes the system call only where the other one has
 * said that it sleeps. `wake-condvar` sleeps by a condition variable.
 */
#define _GNU_SOURCE
#include <linux/futex.h>
#include <pthread.h>
#include <stdatomic.h>
#include <sys/syscall.h>
#include <unistd.h>
#include "meter.h"

#define BATCH 100
#define OVER UINT32_MAX

static _Alignas(64) atomic_uint asked;
static atomic_uint sleeps;
static _Alignas(64) atomic_uint answered;
static pthread_mutex_t lock = PTHREAD_MUTEX_INITIALIZER;
static pthread_cond_t rings = PTHREAD_COND_INITIALIZER;

static void ask_by_futex(uint32_t n)
{
	atomic_store(&asked, n);
	if (atomic_load(&sleeps))
		syscall(SYS_futex, &asked, FUTEX_WAKE_PRIVATE, 1, NULL, NULL, 0);
}

/* What was asked since, once something was. */
static uint32_t hear_by_futex(uint32_t seen)
{
	uint32_t n;

	while ((n = atomic_load(&asked)) == seen) {
		atomic_store(&sleeps, 1);
		if (atomic_load(&asked) == seen)
			syscall(SYS_futex, &asked, FUTEX_WAIT_PRIVATE, seen, NULL, NULL, 0);
		atomic_store(&sleeps, 0);
	}
	return n;
}

static void ask_by_condvar(uint32_t n)
{
	pthread_mutex_lock(&lock);
	atomic_store(&asked, n);
	pthread_cond_signal(&rings);
	pthread_mutex_unlock(&lock);
}

static uint32_t hear_by_condvar(uint32_t seen)
{
	uint32_t n;

	pthread_mutex_lock(&lock);
	while ((n = atomic_load(&asked)) == seen)
		pthread_cond_wait(&rings, &lock);
	pthread_mutex_unlock(&lock);
	return n;
}

struct way {
	const char *name;
	void (*ask)(uint32_t n);
	uint32_t (*hear)(uint32_t seen);
};

static const struct way ways[] = {
	{ "wake-futex", ask_by_futex, hear_by_futex },
	{ "wake-condvar", ask_by_condvar, hear_by_condvar },
};

static void *answer(void *arg)
{
	const struct way *way = arg;
	uint32_t seen = 0;

	while ((seen = way->hear(seen)) != OVER)
		atomic_store(&answered, seen);
	return NULL;
}

static void run(const struct way *way)
{
	pthread_t other;
	uint32_t n = 0;

	atomic_store(&asked, 0);
	atomic_store(&answered, 0);
	if (pthread_create(&other, NULL, answer, (void *)way))
		exit(1);
	begin_meter();
	do {
		for (uint32_t i = 0; i < BATCH; i++) {
			uint32_t step = 0;

			way->ask(++n);
			while (atomic_load(&answered) != n)
				snooze(&step);
		}
	} while (lap(BATCH));
	way->ask(OVER);
	pthread_join(other, NULL);
	print_line(way->name, 2, n);
}

int main(int argc, char **argv)
{
	read_words(argv[0], argc, argv);
	for (size_t i = 0; i < sizeof ways / sizeof *ways; i++)
		if (argc < 5 || !strcmp(argv[4], ways[i].name))
			run(&ways[i]);
}
