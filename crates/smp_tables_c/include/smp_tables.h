/* The tables of Linux 6.1's cross-processor calls and stops, for the threads of a C or C++ program on Linux.
 *
 * A CPU is a number below 32. One thread at a time is that CPU, and holds its handle, an smp_cpu. A *call* is a function that
 * one CPU asks another to run. A *stop* is a function that runs while all CPUs of a mask wait with their interrupts off.
 *
 * The first half of this header has the steps, which are proved, each by itself: no step blocks, sleeps, yields, wakes a thread
 * or calls back. The second half has calls, stops and sleeps in C over the steps. Those are tested, and not proved.
 *
 * What the caller keeps to:
 * - smp_open gets closed handles, which are all zeros. Other steps get one that it has filled, or a closed one.
 * - One thread at a time uses a handle. It is passed on by a lock, a thread's start or join, or a sequentially consistent atomic.
 *   The bytes of a handle may be moved. No copy is used beside it, and nobody reads or writes behind `at`.
 * - No pointer is null, and no two overlap. 64 KiB of stack are free.
 * - A call that smp_handle, smp_next or smp_turn hands out is run before smp_next or smp_reply. Nothing checks that.
 * - Each thread polls, as long as others may call it or stop all. A thread that does not poll holds them up without end.
 * - No signal handler uses a handle, nor the forked child of a process with threads.
 *
 * smp_open takes memory by malloc. The last smp_close of its handles frees it.
 */
#ifndef SMP_TABLES_H
#define SMP_TABLES_H

#include <linux/futex.h>
#include <sched.h>
#include <stddef.h>
#include <stdint.h>
#include <sys/syscall.h>
#include <unistd.h>

#ifdef __cplusplus
extern "C" {
#endif

/* The version of this header. It is another one as soon as a program has to be compiled again. */
enum { SMP_TABLES_VERSION = 2 };

/* What a step answers where it was refused. Then it has changed nothing, unless its text says otherwise. */
enum smp_error {
  SMP_E_NO_CPU = -1,         /* E1: there is no such CPU, or it is not online */
  SMP_E_BUSY = -2,           /* E2: the record is locked: its last call is not done */
  SMP_E_NO_STOPPER = -3,     /* E3: a CPU of the stop is not online */
  SMP_E_BAD_ARGUMENT = -4,   /* E4: an argument that the step does not take, or a step that is not due */
  SMP_E_CONTENDED = -5,      /* E5: the tries were used up, and nothing is queued */
  SMP_E_NO_MEMORY = -6,      /* E6: memory was refused */
  SMP_E_STALE = -7,          /* E7: the CPU may not enter this slot now */
  SMP_E_SLOT_BUSY = -8,      /* E8: the CPU's own stop is not collected yet */
  SMP_E_KEY_RANGE = -13,     /* E13: the count of the key is at that end of its range */
  SMP_E_CLOSED = -20,        /* the handle is closed, or was never opened */
  SMP_E_INSIDE = -21,        /* a function of this CPU is out, which this step does not end */
  SMP_E_OUTSIDE = -22,       /* none is out */
  SMP_E_VERSION = -23        /* the library has another version than this header: of smp_start alone */
};

/* A handle. All zeros: closed. */
typedef struct smp_cpu {
  void *at;
  uint32_t is_open;
} smp_cpu;

/* What is to be run: `func` with `info`, for the CPU `src`. Where it is the function of a stop, `info` is the stop's `arg`, and `src`
 * its slot, which is the number of the CPU that stops. */
typedef struct smp_call {
  uint64_t info;
  uint32_t src, func;
} smp_call;

/* The work of a stop: which CPUs it stops, and which of them run `func` with `arg`. */
typedef struct smp_work {
  uint64_t arg;
  uint32_t kind, mask, active, func;
} smp_work;

/* A site: a place that branches on the key of this number. It jumps while the key is on, or where `branch` is not 0, while it is off. */
typedef struct smp_site {
  uint32_t key, branch;
} smp_site;

enum { SMP_SYNC, SMP_ASYNC };                                     /* the class of a call: its source waits for it, or does not */
enum { SMP_ONE, SMP_MULTI, SMP_PATCH };                           /* the kind of a stop: of one CPU, of several, of all for a key */
enum { SMP_OFF, SMP_ON, SMP_UP, SMP_DOWN };                       /* what a patch does to its key: the `arg` of its work */
enum { SMP_IDLE, SMP_RUN, SMP_OVER };                             /* of smp_handle and smp_next */
enum { SMP_SAME, SMP_CALL, SMP_MOVED, SMP_LEFT, SMP_PATCHED };    /* of smp_turn */
enum { SMP_NUDGED, SMP_LOST, SMP_STOP };                          /* of smp_try_key */

/* -- The steps ------------------------------------------------------------------------------------------------------------------
 * Each answers a negative smp_error where it is refused, else 0 or what its text says. First comes E4 where there is no such class
 * or kind, or `func` is not below 65,536. Then SMP_E_CLOSED with a closed handle. Then SMP_E_INSIDE while a function of the CPU is
 * out: only smp_next ends a call, and smp_reply a stop function. A mask has a bit for each CPU. */

/* The version of the library. */
uint32_t smp_tables_version(void);

/* Makes the tables of `nr` CPUs with the keys 0 to keys - 1, all off, and the sites 0 to sites_length - 1. Opens cpus[c] for each CPU c
 * of the mask `online`. All or none is opened.
 * E4 where nr is not 1 to 32, no CPU is online, one that is online is not below nr, nr is more than length, there are more than 4 keys
 * or 16 sites, or a site's key is not one of the keys. Then E6. */
int32_t smp_open(uint32_t nr, uint32_t online, uint32_t keys, const smp_site *sites, size_t sites_length, smp_cpu *cpus, size_t length);

/* Closes a handle, also while a function is out. What is queued for its CPU runs no more, so close it once nobody calls or stops
 * this CPU. */
int32_t smp_close(smp_cpu *cpu);

/* Queues a call for the CPU `to` by the own record k: record 0 for SYNC calls, 1, 10 and 11 for ASYNC ones, smp_many(to) for either.
 * 1: the queue was empty, so an interrupt is owed (smp_send); 0: none is. It makes at most `tries` compare-exchanges.
 * E4 where there is no such record, tries is 0, `to` is this CPU, or the record may not carry this call. Then E2 where the
 * record is locked, E1, and E5. The call runs once `to` polls. */
int32_t smp_post(smp_cpu *cpu, uint32_t k, uint32_t to, uint32_t call_class, uint32_t func, uint64_t info, uint32_t tries);

/* Sends an interrupt to the CPU `to`, which then takes its queue. One that is not owed does no harm. E1. */
int32_t smp_send(smp_cpu *cpu, uint32_t to);

/* 1: the own record k is free, 0: it is locked. A SYNC call's record is free once the call has run, an ASYNC one's once it
 * begins. E4 where there is no such record. */
int32_t smp_is_done(smp_cpu *cpu, uint32_t k);

/* Takes the CPU's interrupt and its whole queue. SMP_IDLE: no interrupt was pending. SMP_RUN: run *call now, then smp_next.
 * SMP_OVER: the queue was empty. */
int32_t smp_handle(smp_cpu *cpu, smp_call *call);

/* The call that is out has run. It is counted, and a SYNC call's record is free. SMP_RUN: run *call now; SMP_OVER: none is left.
 * SYNC calls come first, and the oldest first. SMP_E_OUTSIDE where no call is out. */
int32_t smp_next(smp_cpu *cpu, smp_call *call);

/* Takes the gate, which orders all stops. 1: taken; 0: some CPU holds it, which may be this one. */
int32_t smp_try_gate(smp_cpu *cpu);

/* Gives the gate up. E4 where this CPU does not hold it. */
int32_t smp_open_gate(smp_cpu *cpu);

/* Begins a stop in the own slot, with the gate held. Each CPU of the mask has to be told of it, to call smp_enter.
 * E8 where the own stop is not collected. Then E4 where the gate is not held, the mask is empty, or the work does not fit its
 * kind: SMP_ONE has one CPU; SMP_PATCH has all online CPUs, the first of them active, a key as `func`, and SMP_OFF to SMP_DOWN as
 * `arg`. Then E3. */
int32_t smp_begin(smp_cpu *cpu, const smp_work *work);

/* Enters the stop of a slot: its kind. E7 where there is no such slot, the CPU is in a stop, or the stop does not call it. */
int32_t smp_enter(smp_cpu *cpu, uint32_t slot);

/* One turn of the stop that the CPU is in; repeat it up to SMP_LEFT. SMP_SAME: there is no new phase. SMP_MOVED, SMP_PATCHED: it
 * has acknowledged one. SMP_CALL: run *call now, then smp_reply; of a stop of several CPUs, all of them have their interrupts
 * off until then. E4 where the CPU is in no stop, or has left it. */
int32_t smp_turn(smp_cpu *cpu, smp_call *call);

/* The stop function that is out has given this answer. A stop of one CPU is completed by it. SMP_E_OUTSIDE where none is out. */
int32_t smp_reply(smp_cpu *cpu, int32_t answer);

/* Completes a stop of several CPUs that this CPU has left. E4 where there is none. */
int32_t smp_finish(smp_cpu *cpu);

/* 1: all CPUs have completed the own stop, *result has its answer, and the slot is free. 0: not yet. E4 where no stop is open. */
int32_t smp_poll_done(smp_cpu *cpu, int32_t *result);

/* 1: the key is on; 0: it is off. It turns in a stop of all online CPUs alone. E4 where there is no such key, or the CPU has its interrupts off. */
int32_t smp_read_key(smp_cpu *cpu, uint32_t k);

/* 1: the site is a jump; 0: it is a NOP. E4 where there is no such site, or the CPU has its interrupts off. */
int32_t smp_read_site(smp_cpu *cpu, uint32_t i);

/* Moves the count of a key by one, up or down, where the key stays on. SMP_NUDGED: done. SMP_LOST: another CPU was faster, try again.
 * SMP_STOP: the key would turn, which takes a stop. E4 as smp_read_key; then E13 at 65,535 up, and at 0 down. */
int32_t smp_try_key(smp_cpu *cpu, uint32_t k, uint32_t up);

/* -- Calls, stops and sleeps, in C over the steps: tested, not proved -----------------------------------------------------------
 * Each of these answers a negative smp_error of a step that was refused. Where one waits, it polls meanwhile: it runs the calls
 * that others make to this CPU, and takes part in their stops. From a function that runs they are refused with SMP_E_INSIDE. */

/* The function number by which a CPU is told of a stop, with the slot as `info`. No call has it. */
enum { SMP_STOP_FUNC = 0xffff };

/* How many compare-exchanges a post makes, before it gives its processor to others and tries again. */
enum { SMP_TRIES = 64 };

/* By what a CPU is woken. */
typedef struct smp_bell {
  uint32_t set;        /* 1: the CPU may sleep */
  uint32_t rings;      /* how often it was rung; the futex */
  uint32_t apart[14];  /* each bell has a cache line */
} smp_bell;

/* What the threads share beside the tables. smp_start fills it. */
typedef struct smp_crew {
  uint32_t online;       /* which CPUs there are */
  uint32_t sleep_after;  /* after how many looks in vain a wait sleeps; 0: no wait sleeps. Set it before threads start */
  uint32_t apart[14];
  uint32_t waiting;      /* the CPUs that wait and may sleep */
  uint32_t apart_too[15];
  smp_bell bells[32];
} smp_crew;

/* What runs the calls to the CPU `me`, and its stop functions, whose answer it gives. It makes no call and no stop, and is short. */
typedef int32_t (*smp_run)(void *context, uint32_t me, const smp_call *call);

/* A CPU of the crew, with what runs its calls. One thread at a time uses it. */
typedef struct smp_seat {
  smp_cpu cpu;
  smp_crew *crew;
  smp_run run;
  void *context;
  uint32_t me;
  uint32_t stops;  /* the slots of the stops that it was told of, and has not entered */
} smp_seat;

/* What smp_call_many_within has come to. */
typedef struct smp_within {
  uint32_t called;  /* for which CPUs a call was queued */
  uint32_t silent;  /* which CPUs have not answered; one that was called runs the call later, once it polls */
} smp_within;

/* The thread sanitizer does not see into the library. These tell it what the words of the tables order. */
#if defined(__SANITIZE_THREAD__)
#define SMP_TSAN
#elif defined(__has_feature)
#if __has_feature(thread_sanitizer)
#define SMP_TSAN
#endif
#endif
#ifdef SMP_TSAN
void __tsan_acquire(void *at);
void __tsan_release(void *at);
#define SMP_ACQUIRE(at) __tsan_acquire(at)
#define SMP_RELEASE(at) __tsan_release(at)
#else
#define SMP_ACQUIRE(at) ((void)0)
#define SMP_RELEASE(at) ((void)0)
#endif
#define SMP_CALLS_OF(crew, cpu) (&(crew)->bells[(cpu) & 31].apart[0])
#define SMP_ENDS_OF(crew, cpu) (&(crew)->bells[(cpu) & 31].apart[1])
#define SMP_STOP_OF(crew, slot) (&(crew)->bells[(slot) & 31].apart[2])
#define SMP_GATE_OF(crew) (&(crew)->apart[0])

#ifndef __cplusplus
long syscall(long number, ...); /* which C99's unistd.h leaves out */
#endif

/* The record for calls to the CPU `to` among many. */
static inline uint32_t smp_many(uint32_t to) { return to < 8 ? to + 2 : to + 4; }

/* The lowest CPU of a mask that is not empty. */
static inline uint32_t smp_first(uint32_t mask) { return (uint32_t)__builtin_ctz(mask); }

/* Checks the version, and opens the handles, as smp_open; fills the crew, whose waits don't sleep. Before threads start. */
static inline int32_t smp_start_keys(smp_crew *crew, uint32_t nr, uint32_t online, uint32_t keys, const smp_site *sites,
                                     size_t sites_length, smp_cpu *cpus, size_t length) {
  static const smp_crew none = {0, 0, {0}, 0, {0}, {{0, 0, {0}}}};
  if (smp_tables_version() != SMP_TABLES_VERSION)
    return SMP_E_VERSION;
  *crew = none;
  crew->online = online;
  return smp_open(nr, online, keys, sites, sites_length, cpus, length);
}

/* The same with no keys. */
static inline int32_t smp_start(smp_crew *crew, uint32_t nr, uint32_t online, smp_cpu *cpus, size_t length) {
  static const smp_site none = {0, 0};
  return smp_start_keys(crew, nr, online, 0, &none, 0, cpus, length);
}

/* A seat for the CPU `me`. It takes the handle out of *cpu, which is closed then. */
static inline smp_seat smp_sit(smp_crew *crew, smp_cpu *cpu, uint32_t me, smp_run run, void *context) {
  smp_seat seat;
  seat.cpu = *cpu;
  seat.crew = crew;
  seat.run = run;
  seat.context = context;
  seat.me = me;
  seat.stops = 0;
  cpu->at = NULL;
  cpu->is_open = 0;
  return seat;
}

/* Spins, longer each time, and then gives the processor to others. */
static inline void smp_relax(uint32_t *step) {
  if (*step > 6) {
    sched_yield();
    return;
  }
#if defined(__x86_64__)
  for (uint32_t i = 0; i < 1u << *step; i++)
    __builtin_ia32_pause();
#endif
  *step += 1;
}

/* Sleeps and wake-ups. A CPU that may sleep sets its bell, notes the rings, and then looks; it sleeps unless the bell has rung since.
 * Who leaves it something does that first, and then looks whether its bell is set. So either the look finds it, or the bell
 * rings after it was set. The search of wake-ups (docs/examples/lost-wake-up.md) goes through every order of these steps. */

/* Wakes a CPU that sleeps. */
static inline void smp_ring(smp_crew *crew, uint32_t cpu) {
  smp_bell *bell = &crew->bells[cpu & 31];
  if (__atomic_load_n(&bell->set, __ATOMIC_SEQ_CST) == 0)
    return;
  __atomic_fetch_add(&bell->rings, 1, __ATOMIC_SEQ_CST);
  syscall(SYS_futex, &bell->rings, FUTEX_WAKE_PRIVATE, 1, (void *)0, (void *)0, 0);
}

/* Wakes the CPUs that wait asleep. */
static inline void smp_ring_waiting(smp_crew *crew) {
  for (uint32_t left = __atomic_load_n(&crew->waiting, __ATOMIC_SEQ_CST); left != 0; left &= left - 1)
    smp_ring(crew, smp_first(left));
}

/* Sets the own bell: how often it has rung. */
static inline uint32_t smp_set_bell(smp_seat *s) {
  smp_bell *bell = &s->crew->bells[s->me & 31];
  __atomic_store_n(&bell->set, 1, __ATOMIC_SEQ_CST);
  return __atomic_load_n(&bell->rings, __ATOMIC_SEQ_CST);
}

/* Sleeps until the own bell has rung more often than this, unless the CPU is to stay awake; then takes the bell back. */
static inline void smp_sleep(smp_seat *s, uint32_t rings, int stay_awake) {
  smp_bell *bell = &s->crew->bells[s->me & 31];
  if (!stay_awake)
    while (__atomic_load_n(&bell->rings, __ATOMIC_SEQ_CST) == rings)
      syscall(SYS_futex, &bell->rings, FUTEX_WAIT_PRIVATE, rings, (void *)0, (void *)0, 0);
  __atomic_store_n(&bell->set, 0, __ATOMIC_SEQ_CST);
}

/* Takes part in the stop of a slot, from its entry to its end. Where the stop does not call this CPU, it does nothing.
 * It waits for the other CPUs of the stop, which must poll, and handles no call meanwhile. */
static inline int32_t smp_take_part(smp_seat *s, uint32_t slot) {
  smp_call call;
  uint32_t step = 0;
  int32_t kind = smp_enter(&s->cpu, slot), turn = kind;
  while (turn >= 0 && turn != SMP_LEFT) {
    SMP_RELEASE(SMP_STOP_OF(s->crew, slot));
    turn = smp_turn(&s->cpu, &call);
    if (turn == SMP_SAME) {
      smp_relax(&step);
      continue;
    }
    step = 0;
    SMP_ACQUIRE(SMP_STOP_OF(s->crew, slot));
    if (turn == SMP_CALL) {
      int32_t answer = s->run(s->context, s->me, &call);
      SMP_RELEASE(SMP_STOP_OF(s->crew, slot));
      turn = smp_reply(&s->cpu, answer);
      if (kind == SMP_ONE && turn >= 0)
        turn = SMP_LEFT;
    }
  }
  if (turn == SMP_LEFT && kind != SMP_ONE)
    turn = smp_finish(&s->cpu);
  smp_ring(s->crew, slot);
  return turn < 0 && turn != SMP_E_STALE ? turn : 0;
}

/* Runs the calls that are queued for this CPU, then takes part in the stops that it was told of. 1: there was something; 0: nothing.
 * It waits in a stop alone. */
static inline int32_t smp_poll(smp_seat *s) {
  smp_call call;
  int32_t step = smp_handle(&s->cpu, &call), found = step != SMP_IDLE;
  while (step == SMP_RUN) {
    SMP_ACQUIRE(SMP_CALLS_OF(s->crew, s->me));
    if (call.func == SMP_STOP_FUNC)
      s->stops |= 1u << (call.info & 31);
    else
      s->run(s->context, s->me, &call);
    SMP_RELEASE(SMP_ENDS_OF(s->crew, call.src));
    step = smp_next(&s->cpu, &call);
  }
  if (found && step >= 0)
    smp_ring_waiting(s->crew);
  while (s->stops != 0 && step >= 0) {
    uint32_t slot = smp_first(s->stops);
    s->stops &= s->stops - 1;
    step = smp_take_part(s, slot);
  }
  return step < 0 ? step : found;
}

/* A poll; where there was nothing, it sleeps until something is sent to this CPU. It is what an idle thread repeats. What ends
 * that has to be told by a call: who only sets a flag does not wake it. */
static inline int32_t smp_rest(smp_seat *s) {
  uint32_t rings = smp_set_bell(s);
  int32_t found = smp_poll(s);
  smp_sleep(s, rings, found != 0);
  return found;
}

/* What a wait looks for: 1: it is there, 0: not yet. */
typedef int32_t (*smp_look)(smp_seat *s, uint32_t k, int32_t *result);

static inline int32_t smp_look_record(smp_seat *s, uint32_t k, int32_t *result) {
  int32_t status = smp_is_done(&s->cpu, k);
  (void)result;
  SMP_ACQUIRE(SMP_ENDS_OF(s->crew, s->me));
  return status;
}

static inline int32_t smp_look_gate(smp_seat *s, uint32_t k, int32_t *result) {
  int32_t status = smp_try_gate(&s->cpu);
  (void)k;
  (void)result;
  SMP_ACQUIRE(SMP_GATE_OF(s->crew));
  return status;
}

static inline int32_t smp_look_done(smp_seat *s, uint32_t k, int32_t *result) {
  int32_t status = smp_poll_done(&s->cpu, result);
  (void)k;
  SMP_ACQUIRE(SMP_STOP_OF(s->crew, s->me));
  return status;
}

/* Polls until this look finds what it looks for, and sleeps between two looks where the crew lets it: 1. */
static inline int32_t smp_wait_for(smp_seat *s, smp_look look, uint32_t k, int32_t *result) {
  uint32_t *waiting = &s->crew->waiting, after = s->crew->sleep_after, looks = 0, step = 0;
  for (;;) {
    int may_sleep = after != 0 && looks >= after;
    uint32_t rings = 0;
    if (may_sleep) {
      __atomic_fetch_or(waiting, 1u << s->me, __ATOMIC_SEQ_CST);
      rings = smp_set_bell(s);
    }
    int32_t found = look(s, k, result), polled = found == 0 ? smp_poll(s) : 0;
    if (may_sleep) {
      smp_sleep(s, rings, found != 0 || polled != 0);
      __atomic_fetch_and(waiting, ~(1u << s->me), __ATOMIC_SEQ_CST);
    } else if (found == 0) {
      smp_relax(&step);
    }
    if (found != 0 || polled < 0)
      return found != 0 ? found : polled;
    looks += looks < after;
  }
}

/* Queues a call by a record that is free, however many tries it takes: 1 where an interrupt is owed. */
static inline int32_t smp_post_free(smp_seat *s, uint32_t k, uint32_t to, uint32_t call_class, uint32_t func, uint64_t info) {
  uint32_t step = 0;
  int32_t owed;
  SMP_RELEASE(SMP_CALLS_OF(s->crew, to));
  while ((owed = smp_post(&s->cpu, k, to, call_class, func, info, SMP_TRIES)) == SMP_E_CONTENDED)
    smp_relax(&step);
  return owed;
}

/* Sends an interrupt, and wakes the CPU. */
static inline int32_t smp_interrupt(smp_seat *s, uint32_t to) {
  int32_t status = smp_send(&s->cpu, to);
  smp_ring(s->crew, to);
  return status;
}

/* Queues a call, once the record's last one is done, and sends the interrupt that is owed. */
static inline int32_t smp_queue(smp_seat *s, uint32_t k, uint32_t to, uint32_t call_class, uint32_t func, uint64_t info) {
  int32_t owed;
  while ((owed = smp_post_free(s, k, to, call_class, func, info)) == SMP_E_BUSY)
    if ((owed = smp_wait_for(s, smp_look_record, k, NULL)) < 0)
      return owed;
  return owed == 1 ? smp_interrupt(s, to) : owed;
}

/* Waits for the records for calls to these CPUs. */
static inline int32_t smp_wait_each(smp_seat *s, uint32_t mask) {
  int32_t status = 0;
  for (; mask != 0 && status >= 0; mask &= mask - 1)
    status = smp_wait_for(s, smp_look_record, smp_many(smp_first(mask)), NULL);
  return status < 0 ? status : 0;
}

/* Waits for these records with at most so many polls; *locked are the CPUs whose records are locked still. */
static inline int32_t smp_wait_within(smp_seat *s, uint32_t mask, uint32_t polls, uint32_t *locked) {
  for (uint32_t step = 0;; polls--) {
    int32_t status = 0;
    *locked = 0;
    for (uint32_t left = mask; left != 0 && status >= 0; left &= left - 1) {
      status = smp_look_record(s, smp_many(smp_first(left)), NULL);
      if (status == 0)
        *locked |= left & -left;
    }
    if (*locked == 0 || polls == 0 || status < 0)
      return status < 0 ? status : 0;
    if ((status = smp_poll(s)) < 0)
      return status;
    smp_relax(&step);
  }
}

/* Queues a call for each of these CPUs, whose records are free, before it sends the first interrupt. */
static inline int32_t smp_queue_each(smp_seat *s, uint32_t mask, uint32_t call_class, uint32_t func, uint64_t info) {
  uint32_t owed = 0;
  int32_t status = 0;
  for (uint32_t left = mask; left != 0 && status >= 0; left &= left - 1) {
    status = smp_post_free(s, smp_many(smp_first(left)), smp_first(left), call_class, func, info);
    owed |= status == 1 ? left & -left : 0;
  }
  for (; owed != 0; owed &= owed - 1)
    smp_interrupt(s, smp_first(owed));
  return status < 0 ? status : 0;
}

/* Calls `func` on the CPU `to` (smp_call_function_single), and waits until it has run there if `wait` is not 0. On this CPU it runs
 * at once. It may wait for the record's last call too; the targets of both must poll. E4 where func is not below SMP_STOP_FUNC;
 * then E1. */
static inline int32_t smp_call_single(smp_seat *s, uint32_t to, uint32_t func, uint64_t info, int wait) {
  uint32_t k = wait ? 0 : 1;
  int32_t status = func >= SMP_STOP_FUNC ? (int32_t)SMP_E_BAD_ARGUMENT : 0;
  if (status == 0 && to == s->me) {
    smp_call call = {info, to, func};
    status = smp_wait_for(s, smp_look_record, k, NULL);
    return status < 0 ? status : (s->run(s->context, s->me, &call), 0);
  }
  if (status == 0)
    status = smp_queue(s, k, to, wait ? SMP_SYNC : SMP_ASYNC, func, info);
  if (status == 0 && wait)
    status = smp_wait_for(s, smp_look_record, k, NULL);
  return status < 0 ? status : 0;
}

/* Calls `func` on another CPU by the user's record u, 0 or 1, and waits for nothing (smp_call_function_single_async).
 * E4 where there is no such record or func, or `to` is this CPU; then E2 where the record's last call is not done; then E1. */
static inline int32_t smp_call_async(smp_seat *s, uint32_t u, uint32_t to, uint32_t func, uint64_t info) {
  int32_t owed = SMP_E_BAD_ARGUMENT;
  if (u < 2 && func < SMP_STOP_FUNC)
    owed = smp_post_free(s, 10 + u, to, SMP_ASYNC, func, info);
  return owed == 1 ? smp_interrupt(s, to) : owed;
}

/* Calls `func` on each online CPU of the mask but this one (smp_call_function_many), and waits until it has run on all of them if
 * `wait` is not 0. It may wait for the last calls by the same records too; the targets must poll. E4 as smp_call_single. */
static inline int32_t smp_call_many(smp_seat *s, uint32_t mask, uint32_t func, uint64_t info, int wait) {
  uint32_t others = mask & s->crew->online & ~(1u << s->me);
  int32_t status = func >= SMP_STOP_FUNC ? (int32_t)SMP_E_BAD_ARGUMENT : smp_wait_each(s, others);
  if (status == 0)
    status = smp_queue_each(s, others, wait ? SMP_SYNC : SMP_ASYNC, func, info);
  return status == 0 && wait ? smp_wait_each(s, others) : status;
}

/* As smp_call_many with wait, but it gives up: it waits with at most `polls` polls for the records, and as many for the calls.
 * A CPU whose record stays locked is not called. 0: all have answered; 1: within->silent have not. It does not sleep. */
static inline int32_t smp_call_many_within(smp_seat *s, uint32_t mask, uint32_t func, uint64_t info, uint32_t polls,
                                           smp_within *within) {
  uint32_t others = mask & s->crew->online & ~(1u << s->me), locked = 0, late = 0;
  int32_t status = func >= SMP_STOP_FUNC ? (int32_t)SMP_E_BAD_ARGUMENT : smp_wait_within(s, others, polls, &locked);
  within->called = others & ~locked;
  within->silent = locked;
  if (status == 0)
    status = smp_queue_each(s, within->called, SMP_SYNC, func, info);
  if (status == 0)
    status = smp_wait_within(s, within->called, polls, &late);
  within->silent |= late;
  return status < 0 ? status : within->silent != 0;
}

/* Takes the gate; who holds it must poll. */
static inline int32_t smp_take_gate(smp_seat *s) { return smp_wait_for(s, smp_look_gate, 0, NULL); }

/* Gives the gate up, and wakes who waits for it. */
static inline int32_t smp_leave_gate(smp_seat *s) {
  SMP_RELEASE(SMP_GATE_OF(s->crew));
  int32_t status = smp_open_gate(&s->cpu);
  smp_ring_waiting(s->crew);
  return status;
}

/* A stop of this work by a CPU that holds the gate: its answer. The gate is given up once the CPU of a stop of one is told, else
 * at the end. */
static inline int32_t smp_stop(smp_seat *s, const smp_work *work, int32_t *answer) {
  uint32_t own = 1u << s->me, others = work->mask & ~own;
  SMP_RELEASE(SMP_STOP_OF(s->crew, s->me));
  int32_t status = smp_begin(&s->cpu, work), is_short = work->kind == SMP_ONE;
  if (status == 0 && (status = smp_wait_each(s, others)) == 0)
    status = smp_queue_each(s, others, SMP_ASYNC, SMP_STOP_FUNC, s->me);
  if (status < 0 || is_short)
    smp_leave_gate(s);
  if (status == 0 && (work->mask & own) != 0)
    status = smp_take_part(s, s->me);
  if (status == 0)
    status = smp_wait_for(s, smp_look_done, 0, answer);
  if (status >= 0 && !is_short)
    smp_leave_gate(s);
  return status < 0 ? status : 0;
}

/* Runs `func` with `arg` on the CPU `to`, between its calls (stop_one_cpu): *answer. It waits for the gate and for that CPU, which
 * must poll. E3 where `to` is not online. */
static inline int32_t smp_stop_one(smp_seat *s, uint32_t to, uint32_t func, uint64_t arg, int32_t *answer) {
  smp_work work = {arg, SMP_ONE, 0, 0, func};
  if (to > 31 || (s->crew->online >> to & 1) == 0)
    return SMP_E_NO_STOPPER;
  work.mask = work.active = 1u << to;
  int32_t status = smp_take_gate(s);
  return status < 0 ? status : smp_stop(s, &work, answer);
}

/* Stops all online CPUs, and runs `func` with `arg` on those of the mask `active`, with the interrupts of all off (stop_machine).
 * *answer is 0 where all have answered 0, else one of the other answers. It waits for the gate and for all CPUs, which must poll. */
static inline int32_t smp_stop_machine(smp_seat *s, uint32_t active, uint32_t func, uint64_t arg, int32_t *answer) {
  smp_work work = {arg, SMP_MULTI, s->crew->online, active, func};
  int32_t status = smp_take_gate(s);
  return status < 0 ? status : smp_stop(s, &work, answer);
}

/* A patch of a key by a CPU that holds the gate, which it gives up: 1. E13 where the count is at that end of its range. */
static inline int32_t smp_patch(smp_seat *s, uint32_t k, uint32_t change) {
  smp_work work = {change, SMP_PATCH, s->crew->online, s->crew->online & -s->crew->online, k};
  int32_t answer = 0, status = smp_stop(s, &work, &answer);
  return status < 0 ? status : answer == 0 ? 1 : (int32_t)SMP_E_KEY_RANGE;
}

/* Turns a key on or off (static_key_enable, static_key_disable), with all its sites, in a stop of all online CPUs. 1: it has turned;
 * 0: it was so already. It waits as smp_stop_machine does. E4 where there is no such key. */
static inline int32_t smp_set_key(smp_seat *s, uint32_t k, int on) {
  int32_t status = smp_take_gate(s);
  if (status < 0)
    return status;
  status = smp_read_key(&s->cpu, k);
  if (status >= 0 && status != (on != 0))
    return smp_patch(s, k, on ? SMP_ON : SMP_OFF);
  smp_leave_gate(s);
  return status < 0 ? status : 0;
}

/* Moves the count of a key by one outside a stop, however many tries it takes: SMP_NUDGED or SMP_STOP. */
static inline int32_t smp_nudge(smp_seat *s, uint32_t k, int up) {
  uint32_t step = 0;
  int32_t moved;
  while ((moved = smp_try_key(&s->cpu, k, up != 0)) == SMP_LOST)
    smp_relax(&step);
  return moved;
}

/* Moves the count of a key by one, up or down (static_key_slow_inc, static_key_slow_dec). 1: the key has turned, in a stop of all
 * online CPUs, for which it waits; 0: it stays on. E4 where there is no such key; E13 at 65,535 up, and at 0 down. */
static inline int32_t smp_count_key(smp_seat *s, uint32_t k, int up) {
  int32_t moved = smp_nudge(s, k, up);
  if (moved != SMP_STOP || (moved = smp_take_gate(s)) < 0)
    return moved;
  moved = smp_nudge(s, k, up);
  if (moved == SMP_STOP)
    return smp_patch(s, k, up ? SMP_UP : SMP_DOWN);
  smp_leave_gate(s);
  return moved;
}

#ifdef __cplusplus
}
#endif

#endif
