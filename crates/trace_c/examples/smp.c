/* judge FILE, replay FILE or check FILE TRACE: prints what smp.h gives of these files, and ends with its status. */
#include "smp.h"
#include <stdio.h>
#include <stdlib.h>
#include <string.h>

typedef struct bytes {
  uint8_t *at;
  size_t length;
} bytes;

/* All bytes of a file. */
static bytes read_file(const char *name) {
  FILE *file = fopen(name, "rb");
  bytes all = {malloc(1), 0};
  for (size_t more = 1; file && all.at && more; all.length += more) {
    all.at = realloc(all.at, all.length + 4096);
    more = all.at ? fread(all.at + all.length, 1, 4096, file) : 0;
  }
  if (!file || !all.at || ferror(file)) {
    perror(name);
    exit(2);
  }
  fclose(file);
  return all;
}

static int32_t call(const char *word, bytes file, bytes trace, bytes out, smp_answer *answer) {
  if (strcmp(word, "judge") == 0)
    return smp_judge(file.at, file.length, out.at, out.length, answer);
  if (strcmp(word, "replay") == 0)
    return smp_replay(file.at, file.length, out.at, out.length, answer);
  return smp_check(file.at, file.length, trace.at, trace.length, out.at, out.length, answer);
}

int main(int count, char **words) {
  if (count < 3)
    return fprintf(stderr, "usage: judge FILE | replay FILE | check FILE TRACE\n"), 2;
  bytes file = read_file(words[2]), trace = read_file(words[count - 1]), out = {malloc(4096), 4096};
  smp_answer answer;
  int32_t status = call(words[1], file, trace, out, &answer);
  if (answer.written < answer.length) {
    out = (bytes){realloc(out.at, answer.length), answer.length};
    status = call(words[1], file, trace, out, &answer);
  }
  fwrite(out.at, 1, answer.written, stdout);
  fprintf(stderr, "status %d line %zu cause %u\n", status, answer.line, answer.cause);
  return status;
}
