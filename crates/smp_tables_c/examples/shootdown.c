/* A TLB shootdown: four threads read the pages of a table through caches of their own, and put other frames behind the pages.
 *
 * Who takes a frame from a page makes every CPU drop that page from its cache, by a call with wait. Only then does it free the
 * frame, which it fills with zeros and uses again. So no reader ever sees a frame that is free. */
#include "smp_tables.h"
#include <pthread.h>
#include <stdio.h>
#include <stdlib.h>

enum { NR = 4, ALL = 15, PAGES = 16, WORDS = 64, STEPS = 5000, READS = 32, FLUSH = 1 };

typedef struct frame {
  uint64_t words[WORDS]; /* all of them the number of its page, or all 0 where it is free */
} frame;

static smp_crew crew;
static smp_cpu cpus[NR];
static frame *table[PAGES];     /* the page table: the thread page % NR changes it, all read it */
static frame *cache[NR][PAGES]; /* the TLB of each CPU, which it alone touches */
static uint64_t reads[NR];
static uint32_t done;

/* Drops a page from the own cache. */
static int32_t run(void *context, uint32_t me, const smp_call *call) {
  (void)context;
  cache[me][call->info] = NULL;
  return 0;
}

static void fill(frame *f, uint64_t what) {
  for (int i = 0; i < WORDS; i++)
    f->words[i] = what;
}

/* Reads a page by the own cache, which is filled from the table on a miss. False where its frame is another one's, or free. */
static int read_page(uint32_t me, uint32_t page) {
  if (!cache[me][page])
    cache[me][page] = __atomic_load_n(&table[page], __ATOMIC_SEQ_CST);
  reads[me]++;
  for (int i = 0; i < WORDS; i++)
    if (cache[me][page]->words[i] != page + 1)
      return 0;
  return 1;
}

/* Puts the free frame behind a page: the frame that is free now. */
static frame *remap(smp_seat *s, uint32_t page, frame *free_one) {
  fill(free_one, page + 1);
  frame *old = __atomic_exchange_n(&table[page], free_one, __ATOMIC_SEQ_CST);
  if (smp_call_single(s, s->me, FLUSH, page, 1) != 0 || smp_call_many(s, ALL, FLUSH, page, 1) != 0)
    exit(2);
  fill(old, 0);
  return old;
}

static void *thread(void *arg) {
  uint32_t me = (uint32_t)(uintptr_t)arg, seed = me + 1;
  smp_seat s = smp_sit(&crew, &cpus[me], me, run, NULL);
  frame *free_one = (frame *)malloc(sizeof *free_one);
  if (!free_one)
    exit(2);
  for (int step = 0; step < STEPS; step++) {
    for (int i = 0; i < READS; i++, seed = seed * 1664525 + 1013904223)
      if (!read_page(me, seed >> 16 & (PAGES - 1)))
        printf("thread %u has read a frame that was freed\n", me), exit(1);
    if (step % 4 == 0)
      free_one = remap(&s, (seed >> 20) % (PAGES / NR) * NR + me, free_one);
    smp_poll(&s);
  }
  for (__atomic_fetch_add(&done, 1, __ATOMIC_SEQ_CST); __atomic_load_n(&done, __ATOMIC_SEQ_CST) < NR;)
    smp_poll(&s);
  smp_close(&s.cpu);
  free(free_one);
  return NULL;
}

int main(void) {
  pthread_t threads[NR];
  uint64_t sum = 0;
  if (smp_start(&crew, NR, ALL, cpus, NR) != 0)
    return 2;
  for (int page = 0; page < PAGES; page++) {
    if (!(table[page] = (frame *)malloc(sizeof(frame))))
      return 2;
    fill(table[page], (uint64_t)page + 1);
  }
  for (uintptr_t cpu = 0; cpu < NR; cpu++)
    if (pthread_create(&threads[cpu], NULL, thread, (void *)cpu) != 0)
      return 2;
  for (int cpu = 0; cpu < NR; cpu++)
    pthread_join(threads[cpu], NULL), sum += reads[cpu];
  for (int page = 0; page < PAGES; page++)
    free(table[page]);
  printf("%lu reads, none of a frame that was freed\n", (unsigned long)sum);
  return 0;
}
