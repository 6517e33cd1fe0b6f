/* storm THREADS ROUNDS SLEEP_AFTER [SECONDS]: threads make calls and stops of each kind, all at once, and check what has run.
 *
 * In each round a thread makes a call of each kind, and in each hundredth round, a stop of each kind. It makes at least so many
 * rounds, and goes on for at least so many seconds. It ends with status 0 where each call has run once, no wait has ended before its
 * function had run, no function has run beside a stop function of all, no site was seen that was not as its key, and the keys are as
 * the changes of them say. The last line says how many of each there were. */
#include "smp_tables.h"
#include <pthread.h>
#include <stdio.h>
#include <stdlib.h>
#include <string.h>
#include <time.h>

enum { MOST = 32, COUNT = 1, ALONE, EACH, ONE };
enum { SINGLE, LATER, ASYNC, MANY, MANY_LATER, WITHIN, KINDS };

typedef struct thread_data {
  uint64_t sent[MOST], ran[MOST]; /* sums: what was sent to each CPU, and what of each has run here */
  uint64_t seen[MOST][KINDS];     /* the last call of each kind that has run here for each CPU */
  uint64_t calls[KINDS], silent, stops, turned[2];
  int busy;
  char apart[64];
} thread_data;

static smp_crew crew;
static smp_cpu cpus[MOST];
static thread_data all[MOST];
static uint32_t threads, rounds, done;
static time_t ends;
static uint64_t alone, each;

/* Key 0 is turned on and off, key 1 is counted up and down, and each site of key 0 is as the other is not. */
static const smp_site sites[] = {{0, 0}, {0, 1}, {1, 0}};

static void check(int holds, const char *what) {
  if (!holds)
    fprintf(stderr, "storm: %s\n", what), exit(1);
}

/* The function of all calls and stops. Of a call, `info` is its kind and its number. */
static int32_t run(void *context, uint32_t me, const smp_call *call) {
  thread_data *own = (thread_data *)context;
  own->busy = 1;
  if (call->func == COUNT) {
    own->ran[call->src] += call->info;
    own->seen[call->src][call->info >> 32] = call->info;
  }
  for (uint32_t cpu = 0; call->func == ALONE && cpu < threads; cpu++)
    check(cpu == me || !all[cpu].busy, "a function ran beside a stop function of all");
  if (call->func == ALONE)
    alone++;
  if (call->func == EACH)
    __atomic_fetch_add(&each, 1, __ATOMIC_SEQ_CST);
  own->busy = 0;
  return (int32_t)(call->func + call->info);
}

static uint64_t next_call(thread_data *own, uint32_t mask, int kind) {
  uint64_t info = (uint64_t)kind << 32 | ++own->calls[kind];
  for (uint32_t cpu = 0; cpu < threads; cpu++)
    own->sent[cpu] += mask >> cpu & 1 ? info : 0;
  return info;
}

static void make_calls(smp_seat *s, thread_data *own, uint32_t to) {
  uint32_t others = crew.online & ~(1u << s->me), seen = 0;
  uint64_t info = next_call(own, 1u << to, SINGLE);
  check(smp_call_single(s, to, COUNT, info, 1) == 0 && all[to].seen[s->me][SINGLE] == info, "call_single");
  check(smp_call_single(s, to, COUNT, next_call(own, 1u << to, LATER), 0) == 0, "call_single without wait");
  int32_t status = smp_call_async(s, 0, to, COUNT, (uint64_t)ASYNC << 32 | (own->calls[ASYNC] + 1));
  check(status == 0 || status == SMP_E_BUSY, "call_async");
  if (status == 0)
    next_call(own, 1u << to, ASYNC);
  info = next_call(own, others, MANY);
  check(smp_call_many(s, crew.online, COUNT, info, 1) == 0, "call_many");
  for (uint32_t cpu = 0; cpu < threads; cpu++)
    seen += cpu != s->me && all[cpu].seen[s->me][MANY] == info;
  check(seen == threads - 1, "call_many has not waited");
  check(smp_call_many(s, crew.online, COUNT, next_call(own, others, MANY_LATER), 0) == 0, "call_many without wait");
  smp_within within;
  info = (uint64_t)WITHIN << 32 | (own->calls[WITHIN] + 1);
  status = smp_call_many_within(s, crew.online, COUNT, info, 8, &within);
  check(status == (within.silent != 0) && ((within.called | within.silent) & ~others) == 0, "call_many_within");
  next_call(own, within.called, WITHIN);
  own->silent += status == 1;
  for (uint32_t cpu = 0; cpu < threads; cpu++)
    if ((within.called & ~within.silent) >> cpu & 1)
      check(all[cpu].seen[s->me][WITHIN] == info, "call_many_within has not waited");
}

/* This CPU takes part in each stop, so nothing turns while it does not poll. */
static void look_at_sites(smp_seat *s) {
  int32_t on = smp_read_key(&s->cpu, 0);
  check(on >= 0 && smp_read_site(&s->cpu, 0) == on && smp_read_site(&s->cpu, 1) == !on, "a site that is not as its key");
}

static void make_stops(smp_seat *s, thread_data *own, uint32_t to, int on) {
  int32_t answer = 0, turned;
  check(smp_stop_one(s, to, ONE, 7, &answer) == 0 && answer == ONE + 7, "stop_one");
  check(smp_stop_one(s, s->me, ONE, 8, &answer) == 0 && answer == ONE + 8, "stop_one of the own CPU");
  check(smp_stop_machine(s, 1u << to, ALONE, 1, &answer) == 0 && answer == ALONE + 1, "stop_machine");
  check(smp_stop_machine(s, crew.online, EACH, 2, &answer) == 0 && answer == EACH + 2, "stop_machine of all active");
  check(smp_stop_machine(s, 0, ALONE, 1, &answer) == 0 && answer == 0, "stop_machine of none active");
  own->stops++;
  check((turned = smp_set_key(s, 0, on)) >= 0 && smp_read_key(&s->cpu, 0) == on, "set_key");
  look_at_sites(s);
  own->turned[on] += turned == 1;
  check(smp_count_key(s, 1, 1) >= 0 && smp_read_key(&s->cpu, 1) == 1 && smp_read_site(&s->cpu, 2) == 1, "count_key up");
  check(smp_count_key(s, 1, 0) >= 0, "count_key down");
}

static void *thread(void *arg) {
  uint32_t me = (uint32_t)(uintptr_t)arg;
  thread_data *own = &all[me];
  smp_seat s = smp_sit(&crew, &cpus[me], me, run, own);
  for (uint32_t i = 0; i < rounds || time(NULL) < ends; i++) {
    uint32_t to = (me + 1 + i % (threads - 1)) % threads;
    make_calls(&s, own, to);
    look_at_sites(&s);
    if (i % 100 == 0)
      make_stops(&s, own, to, i / 100 % 2 == 0);
  }
  for (__atomic_fetch_add(&done, 1, __ATOMIC_SEQ_CST); __atomic_load_n(&done, __ATOMIC_SEQ_CST) < threads;)
    check(smp_poll(&s) >= 0, "poll");
  check(smp_poll(&s) >= 0, "poll"); /* what was queued last */
  cpus[me] = s.cpu;
  return NULL;
}

static void check_sums(void) {
  uint64_t sums[KINDS] = {0}, silent = 0, stops = 0, turned[2] = {0, 0};
  for (uint32_t c = 0; c < threads; c++) {
    for (uint32_t d = 0; d < threads; d++)
      check(all[c].sent[d] == all[d].ran[c], "a call was lost, or has run twice");
    for (int kind = 0; kind < KINDS; kind++)
      sums[kind] += all[c].calls[kind];
    silent += all[c].silent;
    stops += all[c].stops;
    turned[0] += all[c].turned[0];
    turned[1] += all[c].turned[1];
  }
  check(alone == stops && each == stops * threads, "a stop function was lost, or has run twice");
  check((uint64_t)smp_read_key(&cpus[0], 0) == turned[1] - turned[0] && smp_read_key(&cpus[0], 1) == 0, "the keys");
  printf("%lu single, %lu without wait, %lu async, %lu many, %lu without wait, %lu within of which %lu gave up, %lu stops of each kind, "
         "a key turned %lu times\n",
         (unsigned long)sums[SINGLE], (unsigned long)sums[LATER], (unsigned long)sums[ASYNC], (unsigned long)sums[MANY],
         (unsigned long)sums[MANY_LATER], (unsigned long)sums[WITHIN], (unsigned long)silent, (unsigned long)stops,
         (unsigned long)(turned[0] + turned[1]));
}

int main(int count, char **words) {
  pthread_t ids[MOST];
  check((count == 4 || count == 5) && (threads = (uint32_t)atoi(words[1])) >= 2 && threads <= MOST,
        "usage: storm THREADS ROUNDS SLEEP_AFTER [SECONDS]");
  rounds = (uint32_t)atoi(words[2]);
  ends = count == 5 ? time(NULL) + atoi(words[4]) : 0;
  check(smp_start_keys(&crew, threads, threads == 32 ? 0xffffffff : (1u << threads) - 1, 2, sites, 3, cpus, MOST) == 0, "start");
  crew.sleep_after = (uint32_t)atoi(words[3]);
  for (uintptr_t cpu = 0; cpu < threads; cpu++)
    check(pthread_create(&ids[cpu], NULL, thread, (void *)cpu) == 0, "pthread_create");
  for (uint32_t cpu = 0; cpu < threads; cpu++)
    pthread_join(ids[cpu], NULL);
  check_sums();
  for (uint32_t cpu = 0; cpu < threads; cpu++)
    check(smp_close(&cpus[cpu]) == 0, "close");
  return 0;
}
