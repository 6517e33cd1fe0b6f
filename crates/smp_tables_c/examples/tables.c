/* Four threads call each other, call all others, and stop all, while one of them adds up what all have summed. */
#include "smp_tables.h"
#include <pthread.h>
#include <stdio.h>

enum { NR = 4, ALL = 15, ROUNDS = 1000, ADD = 1, ROOTS = 2 };
static smp_crew crew;
static smp_cpu cpus[NR];
static uint64_t total[NR], roots;
static uint32_t done;

static int32_t run(void *context, uint32_t me, const smp_call *call) {
  (void)context;
  total[me] += call->func == ADD ? call->info : 0;
  for (int cpu = 0; call->func == ROOTS && cpu < NR; cpu++)
    roots += total[cpu]; /* all others wait, with their interrupts off */
  return 7;
}

static void *thread(void *arg) {
  uint32_t me = (uint32_t)(uintptr_t)arg;
  smp_seat s = smp_sit(&crew, &cpus[me], me, run, NULL);
  for (int32_t i = 0, answer = 0; i < ROUNDS; i++)
    if (smp_call_single(&s, (me + 1) % NR, ADD, 1, 1) != 0 || smp_call_many(&s, ALL, ADD, 10, 1) != 0 ||
        (i % 100 == 0 && (smp_stop_machine(&s, 1, ROOTS, 0, &answer) != 0 || answer != 7)))
      return puts("refused"), NULL;
  for (__atomic_fetch_add(&done, 1, __ATOMIC_SEQ_CST); __atomic_load_n(&done, __ATOMIC_SEQ_CST) < NR;)
    smp_poll(&s);
  return smp_close(&s.cpu), NULL;
}

int main(void) {
  pthread_t threads[NR];
  int32_t status = smp_start(&crew, NR, ALL, cpus, NR);
  for (uintptr_t cpu = 0; status == 0 && cpu < NR; cpu++)
    status = pthread_create(&threads[cpu], NULL, thread, (void *)cpu);
  for (int cpu = 0; status == 0 && cpu < NR; cpu++)
    pthread_join(threads[cpu], NULL), printf("%d: %lu\n", cpu, (unsigned long)total[cpu]);
  return status == 0 && roots != 0 ? 0 : 1;
}
