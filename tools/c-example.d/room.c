/* judge FILE, replay FILE or check FILE TRACE: calls with less and more room than the text needs, and with each growth of memory
 * refused in turn. A call writes a front of the text and no byte behind it. It says that memory was refused exactly where that
 * is so, and gives all memory back. The status is 0 where all of that holds. Linked with --wrap for malloc, realloc and free. */
#define main of_example
#include "../../crates/trace_c/examples/smp.c"
#undef main

enum { MARK = 0x5a, BEHIND = 64 };

void *__real_malloc(size_t size);
void *__real_realloc(void *at, size_t size);
void __real_free(void *at);

static size_t growths, refused_at = SIZE_MAX; /* how many there were, and which of them is refused */
static long held;                             /* how many blocks are held */

void *__wrap_malloc(size_t size) {
  void *at = growths++ == refused_at ? NULL : __real_malloc(size);
  held += at != NULL;
  return at;
}

void *__wrap_realloc(void *at, size_t size) {
  void *moved = growths++ == refused_at ? NULL : __real_realloc(at, size);
  held += at == NULL && moved != NULL;
  return moved;
}

void __wrap_free(void *at) {
  held -= at != NULL;
  __real_free(at);
}

/* Calls with so much room and this growth refused: whether the answer is that, and what lies behind it is kept. */
static int gives(const char *word, bytes file, bytes trace, bytes whole, int32_t status, smp_answer wanted, size_t room) {
  bytes out = {__real_malloc(room + BEHIND), room};
  smp_answer answer;
  long before = held;
  memset(out.at, MARK, room + BEHIND);
  memset(&answer, MARK, sizeof answer);
  int so = call(word, file, trace, out, &answer) == status && held == before;
  so = so && answer.length == wanted.length && answer.line == wanted.line && answer.cause == wanted.cause;
  so = so && answer.written == (room < wanted.length ? room : wanted.length);
  so = so && memcmp(out.at, whole.at, answer.written) == 0;
  for (size_t at = so ? answer.written : 0; at < room + BEHIND; at++)
    so = so && out.at[at] == MARK;
  __real_free(out.at);
  return so;
}

int main(int count, char **words) {
  if (count < 3)
    return 2;
  bytes file = read_file(words[2]), trace = read_file(words[count - 1]), whole = {malloc(1 << 22), 1 << 22};
  smp_answer full, none = {0, 0, 0, SMP_NO_MEMORY};
  size_t before = growths;
  int32_t status = call(words[1], file, trace, whole, &full);
  size_t needed = growths - before, rooms[] = {0, 1, full.length - 1, full.length, full.length + 1, 4096};
  for (int at = full.length ? 0 : 3; at < 6; at++)
    if (!gives(words[1], file, trace, whole, status, full, rooms[at]))
      return fprintf(stderr, "with room for %zu bytes\n", rooms[at]), 1;
  for (size_t at = 0; at < needed; at++) {
    growths = 0;
    refused_at = at;
    if (!gives(words[1], file, trace, whole, SMP_UNDONE, none, full.length))
      return fprintf(stderr, "with growth %zu of %zu refused\n", at, needed), 1;
  }
  return 0;
}
