/* The proved machine for C and Rust: replays of scripts, checks of steps and verdicts on traces, over bytes in memory.
 *
 * docs/FORMATS.md says what a script and a trace are, and what is printed of them.
 *
 * Each call reads its input, writes what there is to print to `out`, and fills `*answer`. It returns an smp_status.
 * The text goes to `out` as far as that has room, and the bytes behind it stay as they are. `answer->length` is the length
 * of the whole text, so a caller may call again with more room. Where a call could not be done, `out` stays as it is.
 *
 * What the caller keeps to:
 * - A pointer with a length has that many bytes. No pointer is null, also where the length is 0: pass (uint8_t *)"".
 * - `out` and `*answer` lie apart from each other and from the input. What `*answer` has before the call is of no effect.
 * - 64 KiB of stack are free. That was enough in all that was tried; no proof says how much a call takes.
 *
 * A call takes memory by malloc, realloc and free, and gives all of it back. It keeps nothing between calls. So threads may
 * call at the same time, each with bytes of its own. No signal handler may call, nor the forked child of a process with threads.
 */
#ifndef SMP_H
#define SMP_H

#include <stddef.h>
#include <stdint.h>

#ifdef __cplusplus
extern "C" {
#endif

/* What a call returns. */
enum smp_status {
  SMP_YES = 0,     /* lawful, done, or the same */
  SMP_NO = 1,      /* not lawful, stopped, or another */
  SMP_UNDONE = 2   /* the text has a fault, or memory was refused: `cause` says which */
};

/* Why a call could not be done. */
enum smp_cause {
  SMP_DONE = 0,        /* it was done */
  SMP_TOO_LONG = 1,    /* too many bytes, lines or events */
  SMP_CUT = 2,         /* the text ends before this line does */
  SMP_WORD = 3,        /* a wrong word, or too few or too many fields */
  SMP_NUMBER = 4,      /* a field that is no decimal number */
  SMP_RANGE = 5,       /* a number outside the range of its field */
  SMP_MASK = 6,        /* a field that is no CPU list */
  SMP_SHARED_KEY = 7,  /* a key that more than one CPU sets */
  SMP_NO_MEMORY = 8    /* memory was refused; nothing is said of the text */
};

typedef struct smp_answer {
  size_t length;   /* how many bytes there are to print */
  size_t written;  /* how many of them `out` had room for */
  size_t line;     /* the line at fault, or that the answer names, counted from 1; 0 for none */
  uint32_t cause;  /* an smp_cause */
} smp_answer;

/* Judges a trace of events, as `smp judge` does. SMP_YES: some run of the model has these events. SMP_NO: none has that of
 * `line`. The text is the verdict. */
int32_t smp_judge(const uint8_t *trace, size_t trace_length, uint8_t *out, size_t out_length, smp_answer *answer);

/* Replays a script, as `smp_runner replay` does. SMP_YES: all its events were made. SMP_NO: one was refused, as the last
 * line of the text says. The text is what each step does. */
int32_t smp_replay(const uint8_t *script, size_t script_length, uint8_t *out, size_t out_length, smp_answer *answer);

/* Holds a trace of steps against a script, as `smp check` does. SMP_YES: smp_replay prints just that, and there is no text.
 * SMP_NO: `line` is the first line that differs, and the text says what both have there. */
int32_t smp_check(const uint8_t *script, size_t script_length, const uint8_t *trace, size_t trace_length, uint8_t *out,
                  size_t out_length, smp_answer *answer);

#ifdef __cplusplus
}
#endif

#endif
