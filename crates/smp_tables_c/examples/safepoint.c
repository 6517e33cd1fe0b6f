/* Safepoints: four threads allocate, and one of them collects the garbage of all, while a stop keeps the others still.
 *
 * A thread is at a safepoint where it polls, or waits for its own stop. No lock guards the heaps: an object that is in use is
 * never freed, and none that is garbage survives the last collection. */
#include "smp_tables.h"
#include <pthread.h>
#include <stdio.h>
#include <stdlib.h>

enum { NR = 4, ALL = 15, STEPS = 20000, MOST = 2000, DEPTH = 8, COLLECT = 1 };

typedef struct object {
  struct object *next;  /* the heap of its thread */
  struct object *child; /* what it keeps alive */
  uint32_t owner, marked;
} object;

typedef struct mutator {
  object *heap, *root; /* all of its objects, and those in use */
  uint64_t made, freed;
  char apart[32];
} mutator;

static smp_crew crew;
static smp_cpu cpus[NR];
static mutator mutators[NR];
static uint32_t collections, done;

/* Marks what is in use, and frees the rest. All other threads are at a safepoint. */
static void collect(mutator *m) {
  for (object *it = m->root; it; it = it->child)
    it->marked = 1;
  for (object **at = &m->heap; *at;) {
    object *it = *at;
    if (it->marked) {
      it->marked = 0;
      at = &it->next;
      continue;
    }
    *at = it->next;
    it->owner = UINT32_MAX;
    free(it);
    m->freed++;
  }
}

static int32_t run(void *context, uint32_t me, const smp_call *call) {
  (void)context, (void)me, (void)call; /* COLLECT is the only function */
  for (int cpu = 0; cpu < NR; cpu++)
    collect(&mutators[cpu]);
  collections++;
  return 0;
}

/* Allocates an object in front of those in use. At DEPTH all of them become garbage. False where one in use was freed. */
static int allocate(mutator *m, uint32_t me) {
  object *new_one = (object *)malloc(sizeof *new_one);
  int depth = 0;
  if (!new_one)
    exit(2);
  *new_one = (object){m->heap, m->root, me, 0};
  m->heap = m->root = new_one;
  m->made++;
  for (object *it = m->root; it; it = it->child, depth++)
    if (it->owner != me)
      return 0;
  if (depth == DEPTH)
    m->root = NULL;
  return 1;
}

static void *mutate(void *arg) {
  uint32_t me = (uint32_t)(uintptr_t)arg;
  smp_seat s = smp_sit(&crew, &cpus[me], me, run, NULL);
  mutator *m = &mutators[me];
  int32_t answer = 0, status = 0;
  for (int step = 0; step < STEPS && status >= 0; step++) {
    if (!allocate(m, me))
      printf("thread %u uses an object that was freed\n", me), exit(1);
    status = m->made - m->freed > MOST ? smp_stop_machine(&s, 1u << me, COLLECT, 0, &answer) : smp_poll(&s);
  }
  for (__atomic_fetch_add(&done, 1, __ATOMIC_SEQ_CST); __atomic_load_n(&done, __ATOMIC_SEQ_CST) < NR;)
    smp_poll(&s);
  smp_close(&s.cpu);
  return NULL;
}

int main(void) {
  pthread_t threads[NR];
  uint64_t made = 0, freed = 0;
  if (smp_start(&crew, NR, ALL, cpus, NR) != 0)
    return 2;
  for (uintptr_t cpu = 0; cpu < NR; cpu++)
    if (pthread_create(&threads[cpu], NULL, mutate, (void *)cpu) != 0)
      return 2;
  for (int cpu = 0; cpu < NR; cpu++) {
    pthread_join(threads[cpu], NULL);
    mutators[cpu].root = NULL;
    collect(&mutators[cpu]);
    made += mutators[cpu].made;
    freed += mutators[cpu].freed;
  }
  printf("%lu objects made, %lu freed, %s\n", (unsigned long)made, (unsigned long)freed, collections ? "collected" : "never collected");
  return made == freed && collections != 0 ? 0 : 1;
}
