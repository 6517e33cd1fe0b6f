/* Trace points: four threads work, and note where each step begins and where it ends, but only while a key is on. Both places are
 * sites of the key. It turns in a stop of all, and a thread takes part in a stop where it polls. So no step is noted at one end alone. */
#include "smp_tables.h"
#include <pthread.h>
#include <stdio.h>

enum { NR = 4, ALL = 15, STEPS = 20000, TURN = 1000, TRACE = 0, BEGIN = 0, END = 1 };
static const smp_site sites[] = {{TRACE, 0}, {TRACE, 0}};
static smp_crew crew;
static smp_cpu cpus[NR];
static uint64_t begun[NR], ended[NR];
static uint32_t done;

static int32_t run(void *context, uint32_t me, const smp_call *call) {
  return (void)context, (void)me, (void)call, 0; /* nobody is called */
}

static void *thread(void *arg) {
  uint32_t me = (uint32_t)(uintptr_t)arg;
  smp_seat s = smp_sit(&crew, &cpus[me], me, run, NULL);
  for (int step = 0; step < STEPS; step++) {
    if (me == 0 && step % TURN == 0 && smp_set_key(&s, TRACE, step / TURN % 2) < 0)
      return puts("refused"), NULL;
    begun[me] += smp_read_site(&s.cpu, BEGIN) == 1;
    ended[me] += smp_read_site(&s.cpu, END) == 1;
    smp_poll(&s);
  }
  for (__atomic_fetch_add(&done, 1, __ATOMIC_SEQ_CST); __atomic_load_n(&done, __ATOMIC_SEQ_CST) < NR;)
    smp_poll(&s);
  return smp_close(&s.cpu), NULL;
}

int main(void) {
  pthread_t threads[NR];
  int32_t status = smp_start_keys(&crew, NR, ALL, 1, sites, 2, cpus, NR);
  for (uintptr_t cpu = 0; status == 0 && cpu < NR; cpu++)
    status = pthread_create(&threads[cpu], NULL, thread, (void *)cpu);
  for (int cpu = 0; status == 0 && cpu < NR; cpu++) {
    pthread_join(threads[cpu], NULL);
    printf("%d: %lu of %d steps\n", cpu, (unsigned long)begun[cpu], STEPS);
  }
  for (int cpu = 0; cpu < NR; cpu++)
    if (begun[cpu] != ended[cpu])
      status = 1;
  return status == 0 && begun[0] == STEPS / 2 ? 0 : 1;
}
