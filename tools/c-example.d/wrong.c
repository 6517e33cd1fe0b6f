/* Each wrong use that a status can tell, on one thread: what the steps and the calls of smp_tables.h answer. The last line says how
 * many were tried. The status is 1 where an answer is another one. */
#include "smp_tables.h"
#include <stdio.h>

enum { NR = 4, ONLINE = 7, FUNC = 5 }; /* CPU 3 is not online */
static int tried, failed;
static smp_crew crew;

static void is(const char *what, int32_t found, int32_t wanted) {
  tried++;
  if (found != wanted)
    failed++, fprintf(stderr, "wrong: %s answered %d and not %d\n", what, found, wanted);
}
#define IS(wanted, call) is(#call, (call), (wanted))

static smp_cpu cpus[NR];
static smp_call call;
static int32_t result;
static const smp_site sites[17] = {{0, 0}, {0, 1}, {1, 0}}; /* the others are as the first */

static void closed(smp_cpu *c) {
  smp_work work = {0, SMP_ONE, 1, 1, FUNC};
  IS(SMP_E_CLOSED, smp_close(c));
  IS(SMP_E_CLOSED, smp_post(c, 99, 99, SMP_SYNC, FUNC, 0, 0));
  IS(SMP_E_CLOSED, smp_send(c, 99));
  IS(SMP_E_CLOSED, smp_is_done(c, 99));
  IS(SMP_E_CLOSED, smp_handle(c, &call));
  IS(SMP_E_CLOSED, smp_next(c, &call));
  IS(SMP_E_CLOSED, smp_try_gate(c));
  IS(SMP_E_CLOSED, smp_open_gate(c));
  IS(SMP_E_CLOSED, smp_begin(c, &work));
  IS(SMP_E_CLOSED, smp_enter(c, 0));
  IS(SMP_E_CLOSED, smp_turn(c, &call));
  IS(SMP_E_CLOSED, smp_reply(c, 0));
  IS(SMP_E_CLOSED, smp_finish(c));
  IS(SMP_E_CLOSED, smp_poll_done(c, &result));
  IS(SMP_E_CLOSED, smp_read_key(c, 0));
  IS(SMP_E_CLOSED, smp_read_site(c, 0));
  IS(SMP_E_CLOSED, smp_try_key(c, 0, 1));
}

/* Every step but the one that is due, while a function of the CPU is out. */
static void inside(smp_cpu *c, int in_stop) {
  smp_work work = {0, SMP_ONE, 1, 1, FUNC};
  IS(SMP_E_INSIDE, smp_post(c, 0, 1, SMP_SYNC, FUNC, 0, 1));
  IS(SMP_E_INSIDE, smp_send(c, 1));
  IS(SMP_E_INSIDE, smp_is_done(c, 0));
  IS(SMP_E_INSIDE, smp_handle(c, &call));
  IS(SMP_E_INSIDE, smp_try_gate(c));
  IS(SMP_E_INSIDE, smp_open_gate(c));
  IS(SMP_E_INSIDE, smp_begin(c, &work));
  IS(SMP_E_INSIDE, smp_enter(c, 0));
  IS(SMP_E_INSIDE, smp_turn(c, &call));
  IS(SMP_E_INSIDE, smp_finish(c));
  IS(SMP_E_INSIDE, smp_poll_done(c, &result));
  IS(SMP_E_INSIDE, smp_read_key(c, 0));
  IS(SMP_E_INSIDE, smp_read_site(c, 0));
  IS(SMP_E_INSIDE, smp_try_key(c, 0, 1));
  if (in_stop)
    IS(SMP_E_INSIDE, smp_next(c, &call));
  else
    IS(SMP_E_INSIDE, smp_reply(c, 0));
}

static void outside(smp_cpu *c) {
  IS(SMP_E_OUTSIDE, smp_next(c, &call));
  IS(SMP_E_OUTSIDE, smp_reply(c, 0));
}

static void opens(void) {
  smp_cpu none[NR] = {{0, 0}, {0, 0}, {0, 0}, {0, 0}};
  IS(SMP_E_BAD_ARGUMENT, smp_open(0, 1, 2, sites, 3, none, NR));
  IS(SMP_E_BAD_ARGUMENT, smp_open(33, 1, 2, sites, 3, none, NR));
  IS(SMP_E_BAD_ARGUMENT, smp_open(NR, 0, 2, sites, 3, none, NR));
  IS(SMP_E_BAD_ARGUMENT, smp_open(NR, 16, 2, sites, 3, none, NR));
  IS(SMP_E_BAD_ARGUMENT, smp_open(NR, ONLINE, 2, sites, 3, none, NR - 1));
  IS(SMP_E_BAD_ARGUMENT, smp_open(NR, ONLINE, 5, sites, 3, none, NR));  /* so many keys */
  IS(SMP_E_BAD_ARGUMENT, smp_open(NR, ONLINE, 2, sites, 17, none, NR)); /* so many sites */
  IS(SMP_E_BAD_ARGUMENT, smp_open(NR, ONLINE, 1, sites, 3, none, NR));  /* a site of key 1 */
  closed(&none[0]);
}

static void calls(smp_cpu *c) {
  IS(SMP_E_BAD_ARGUMENT, smp_post(c, 36, 1, SMP_SYNC, FUNC, 0, 1));  /* there is no such record */
  IS(SMP_E_BAD_ARGUMENT, smp_post(c, 0, 1, SMP_SYNC, FUNC, 0, 0));   /* no tries */
  IS(SMP_E_BAD_ARGUMENT, smp_post(c, 0, 0, SMP_SYNC, FUNC, 0, 1));   /* this CPU */
  IS(SMP_E_BAD_ARGUMENT, smp_post(c, 0, 1, SMP_ASYNC, FUNC, 0, 1));  /* not by this record */
  IS(SMP_E_BAD_ARGUMENT, smp_post(c, smp_many(2), 1, SMP_SYNC, FUNC, 0, 1));
  IS(SMP_E_BAD_ARGUMENT, smp_post(c, 0, 1, 2, FUNC, 0, 1));          /* there is no such class */
  IS(SMP_E_BAD_ARGUMENT, smp_post(c, 0, 1, SMP_SYNC, 65536, 0, 1));  /* nor such a function */
  IS(SMP_E_NO_CPU, smp_post(c, 0, 3, SMP_SYNC, FUNC, 0, 1));
  IS(SMP_E_NO_CPU, smp_send(c, 3));
  IS(SMP_E_NO_CPU, smp_send(c, 99));
  IS(SMP_E_BAD_ARGUMENT, smp_is_done(c, 36));
  IS(SMP_IDLE, smp_handle(c, &call));
  IS(1, smp_post(c, 0, 1, SMP_SYNC, FUNC, 42, 1));
  IS(SMP_E_BUSY, smp_post(c, 0, 1, SMP_SYNC, FUNC, 0, 1));           /* a second call while one is out */
  IS(SMP_E_BUSY, smp_post(c, 0, 3, SMP_SYNC, FUNC, 0, 1));           /* E2 comes before E1 */
  IS(0, smp_is_done(c, 0));
  IS(0, smp_send(c, 1));
  IS(SMP_RUN, smp_handle(&cpus[1], &call));
  is("the call", call.info == 42 && call.func == FUNC && call.src == 0, 1);
  inside(&cpus[1], 0);
  IS(0, smp_is_done(c, 0));
  IS(SMP_OVER, smp_next(&cpus[1], &call));
  IS(1, smp_is_done(c, 0));
}

static void stops(smp_cpu *c) {
  smp_work one = {3, SMP_ONE, 2, 2, FUNC}, two = {3, SMP_ONE, 3, 3, FUNC}, none = {3, SMP_MULTI, 0, 0, FUNC};
  smp_work gone = {3, SMP_MULTI, 15, 1, FUNC}, kind = {3, 3, 1, 1, FUNC}, key = {9, SMP_PATCH, ONLINE, 1, 0};
  IS(SMP_E_BAD_ARGUMENT, smp_open_gate(c));
  IS(SMP_E_BAD_ARGUMENT, smp_begin(c, &one)); /* without the gate */
  IS(1, smp_try_gate(c));
  IS(0, smp_try_gate(c));
  IS(0, smp_try_gate(&cpus[1]));
  IS(SMP_E_BAD_ARGUMENT, smp_open_gate(&cpus[1]));
  IS(SMP_E_BAD_ARGUMENT, smp_begin(c, &two));
  IS(SMP_E_BAD_ARGUMENT, smp_begin(c, &none));
  IS(SMP_E_BAD_ARGUMENT, smp_begin(c, &kind));
  IS(SMP_E_BAD_ARGUMENT, smp_begin(c, &key));
  IS(SMP_E_NO_STOPPER, smp_begin(c, &gone));
  IS(SMP_E_BAD_ARGUMENT, smp_poll_done(c, &result));
  IS(SMP_E_BAD_ARGUMENT, smp_turn(c, &call));
  IS(SMP_E_BAD_ARGUMENT, smp_finish(c));
  IS(SMP_E_STALE, smp_enter(&cpus[1], 0));
  IS(SMP_E_STALE, smp_enter(&cpus[1], 99));
  IS(0, smp_begin(c, &one));
  IS(SMP_E_SLOT_BUSY, smp_begin(c, &one));
  IS(0, smp_poll_done(c, &result));
  IS(SMP_E_STALE, smp_enter(c, 0)); /* the stop does not call this CPU */
  IS(SMP_ONE, smp_enter(&cpus[1], 0));
  IS(SMP_E_STALE, smp_enter(&cpus[1], 0));
  IS(SMP_CALL, smp_turn(&cpus[1], &call));
  is("the stop", call.info == 3 && call.func == FUNC && call.src == 0, 1);
  inside(&cpus[1], 1);
  IS(0, smp_reply(&cpus[1], -7));
  IS(SMP_E_BAD_ARGUMENT, smp_turn(&cpus[1], &call));
  IS(1, smp_poll_done(c, &result));
  is("the answer", result, -7);
  IS(0, smp_open_gate(c));
}

static void keys(smp_cpu *c) {
  IS(SMP_E_BAD_ARGUMENT, smp_read_key(c, 2));
  IS(SMP_E_BAD_ARGUMENT, smp_read_site(c, 3));
  IS(SMP_E_BAD_ARGUMENT, smp_try_key(c, 2, 1));
  IS(0, smp_read_key(c, 0));
  IS(0, smp_read_site(c, 0));
  IS(1, smp_read_site(c, 1));
  IS(SMP_E_KEY_RANGE, smp_try_key(c, 0, 0));
  IS(SMP_STOP, smp_try_key(c, 0, 1));
}

static int32_t none_runs(void *context, uint32_t me, const smp_call *heard) { return (void)context, (void)me, (void)heard, 0; }

/* A CPU that is alone online turns a key, and counts it to both ends of its range. */
static void key_alone(void) {
  smp_crew one;
  smp_cpu cpu = {0, 0};
  IS(0, smp_start_keys(&one, 1, 1, 2, sites, 3, &cpu, 1));
  smp_seat s = smp_sit(&one, &cpu, 0, none_runs, NULL);
  IS(SMP_E_KEY_RANGE, smp_count_key(&s, 0, 0));
  IS(1, smp_set_key(&s, 0, 1));
  IS(0, smp_set_key(&s, 0, 1));
  IS(1, smp_read_key(&s.cpu, 0));
  IS(1, smp_read_site(&s.cpu, 0));
  IS(0, smp_read_site(&s.cpu, 1));
  IS(0, smp_read_key(&s.cpu, 1));
  IS(0, smp_read_site(&s.cpu, 2));
  IS(SMP_STOP, smp_try_key(&s.cpu, 0, 0));
  for (int count = 1; count < 65535; count++)
    failed += smp_try_key(&s.cpu, 0, 1) != SMP_NUDGED;
  IS(SMP_E_KEY_RANGE, smp_try_key(&s.cpu, 0, 1));
  IS(SMP_E_KEY_RANGE, smp_count_key(&s, 0, 1));
  IS(1, smp_read_key(&s.cpu, 0));
  IS(1, smp_set_key(&s, 0, 0));
  IS(0, smp_read_site(&s.cpu, 0));
  IS(1, smp_count_key(&s, 0, 1));
  IS(1, smp_count_key(&s, 0, 0));
  IS(0, smp_read_key(&s.cpu, 0));
  IS(0, smp_close(&s.cpu));
}

static int32_t from_inside(void *context, uint32_t me, const smp_call *heard) {
  smp_seat *s = (smp_seat *)context;
  smp_within within;
  (void)me, (void)heard;
  IS(SMP_E_INSIDE, smp_poll(s));
  IS(SMP_E_INSIDE, smp_rest(s));
  IS(SMP_E_INSIDE, smp_call_single(s, 0, FUNC, 0, 1));
  IS(SMP_E_INSIDE, smp_call_async(s, 0, 0, FUNC, 0));
  IS(SMP_E_INSIDE, smp_call_many(s, ONLINE, FUNC, 0, 1));
  IS(SMP_E_INSIDE, smp_call_many_within(s, ONLINE, FUNC, 0, 9, &within));
  IS(SMP_E_INSIDE, smp_stop_one(s, 0, FUNC, 0, &result));
  IS(SMP_E_INSIDE, smp_stop_machine(s, 1, FUNC, 0, &result));
  IS(SMP_E_INSIDE, smp_set_key(s, 0, 1));
  IS(SMP_E_INSIDE, smp_count_key(s, 0, 1));
  return 0;
}

static void in_c(smp_seat *s, smp_seat *other) {
  smp_within within;
  IS(SMP_E_NO_CPU, smp_call_single(s, 3, FUNC, 0, 1));
  IS(SMP_E_BAD_ARGUMENT, smp_call_single(s, 1, SMP_STOP_FUNC, 0, 1));
  IS(SMP_E_BAD_ARGUMENT, smp_call_many(s, ONLINE, SMP_STOP_FUNC, 0, 1));
  IS(SMP_E_BAD_ARGUMENT, smp_call_async(s, 2, 1, FUNC, 0));
  IS(SMP_E_NO_CPU, smp_call_async(s, 0, 3, FUNC, 0));
  IS(SMP_E_NO_STOPPER, smp_stop_one(s, 3, FUNC, 0, &result));
  IS(SMP_E_BAD_ARGUMENT, smp_set_key(s, 99, 1));
  IS(0, smp_call_async(s, 0, 1, FUNC, 0));
  IS(SMP_E_BUSY, smp_call_async(s, 0, 1, FUNC, 0));
  IS(1, smp_call_many_within(s, 2, FUNC, 0, 3, &within));
  is("the silent CPU", (int32_t)within.silent, 2);
  IS(1, smp_call_many_within(s, 2, FUNC, 0, 3, &within));
  is("the CPU that is not called again", (int32_t)within.called, 0);
  IS(1, smp_poll(other));
}

int main(void) {
  static const smp_cpu none = {0, 0};
  opens();
  IS(SMP_TABLES_VERSION, (int32_t)smp_tables_version());
  IS(0, smp_start_keys(&crew, NR, ONLINE, 2, sites, 3, cpus, NR));
  closed(&cpus[3]);
  for (int cpu = 0; cpu < 3; cpu++)
    outside(&cpus[cpu]);
  calls(&cpus[0]);
  stops(&cpus[0]);
  keys(&cpus[0]);
  key_alone();
  smp_seat s = smp_sit(&crew, &cpus[0], 0, from_inside, &s), other = smp_sit(&crew, &cpus[1], 1, from_inside, &other);
  closed(&cpus[0]);
  in_c(&s, &other);
  IS(0, smp_close(&s.cpu));
  closed(&s.cpu);
  IS(0, smp_close(&other.cpu));
  IS(0, smp_close(&cpus[2]));
  cpus[2] = none;
  printf("%d uses, %d other answers\n", tried, failed);
  return failed != 0;
}
