// Places large blocks of memory SHIFT words behind the begin of a cache line, for a program that is run with it:
//
//     cc -O2 -shared -fPIC -o shift.so bench/shift.c
//     LD_PRELOAD=./shift.so SHIFT=4 crates/load/out/load bench time 3 1000 post-1
//
// `tools/beside --shift 4` does so. A block is large from 4 KiB on, as the tables of words are.
#define _GNU_SOURCE
#include <dlfcn.h>
#include <stdint.h>
#include <stdlib.h>
#include <string.h>

enum { LARGE = 4096, LINE = 64, MOST = 256 };

static struct {
	void *at, *base;
	size_t size;
} placed[MOST];

static void *next(const char *name) { return dlsym(RTLD_NEXT, name); }

static int place_of(void *at)
{
	int i = 0;
	while (i < MOST && placed[i].at != at)
		i++;
	return i;
}

void *malloc(size_t size)
{
	static void *(*plain)(size_t);
	if (!plain)
		plain = (void *(*)(size_t))next("malloc");
	const char *words = getenv("SHIFT");
	int i = size < LARGE || !words ? MOST : place_of(NULL);
	if (i == MOST)
		return plain(size);
	char *base = plain(size + 4 * LINE);
	if (!base)
		return NULL;
	placed[i].base = base;
	placed[i].size = size;
	placed[i].at = (char *)(((uintptr_t)base + LINE) & ~(uintptr_t)(LINE - 1)) + 8 * atoi(words);
	return placed[i].at;
}

void free(void *at)
{
	static void (*plain)(void *);
	if (!plain)
		plain = (void (*)(void *))next("free");
	int i = at ? place_of(at) : MOST;
	if (i < MOST)
		placed[i].at = NULL;
	plain(i < MOST ? placed[i].base : at);
}

void *realloc(void *at, size_t size)
{
	static void *(*plain)(void *, size_t);
	if (!plain)
		plain = (void *(*)(void *, size_t))next("realloc");
	int i = at ? place_of(at) : MOST;
	if (i == MOST)
		return plain(at, size);
	void *moved = malloc(size);
	if (!moved)
		return NULL;
	memcpy(moved, at, placed[i].size < size ? placed[i].size : size);
	free(at);
	return moved;
}
