/*
 * P CPUs (-DP=5) post to one more, P tries each, for Spin: one transition for each access to a word, in the order of
 * docs/formats/words.md. Each CPU has one record, of its own number, and a link is a record + 1. What a CPU does not know
 * any more is 0, as in bench/machine.h.
 *
 *     spin -a -o2 -DP=5 posts.pml && gcc -O2 -DSAFETY -DNOREDUCE -o pan pan.c && ./pan -w20
 *
 * Spin then stores the states of `smp explore`, and has one transition more, for the first state. A guard and a store are
 * in one d_step where the next step depends on what was found. A CPU ends at `end: false`: a process that ends would have
 * one more step. Without -o2 Spin leaves out of a state the words that nobody reads.
 */
#ifndef P
#define P 5
#endif
#define CPUS (P + 1)
#define LOCK 1
#define SYNC 16
#define TALLY(s, d) ((s) * CPUS + (d))

byte head[CPUS];
byte flags[CPUS], func[CPUS], info[CPUS], next[CPUS];
byte queued[CPUS * CPUS];

active [P] proctype cpu()
{
	byte me = _pid;
	byte found, tries;

	!(flags[me] & LOCK);
	flags[me] = LOCK + SYNC;
	func[me] = 7;
	info[me] = 42;
	queued[TALLY(me, P)]++;
	d_step { found = head[P]; tries = P };
	next[me] = found;
	do
	:: d_step { head[P] == found -> head[P] = me + 1; found = 0; tries = 0 }; break
	:: d_step { head[P] != found && tries > 1 -> found = head[P]; tries-- };
	   next[me] = found
	:: d_step { head[P] != found && tries == 1 -> found = 0; tries = 0 };
	   queued[TALLY(me, P)]--;
	   flags[me] = 0;
	   break
	od;
end:	false
}
