/*
 * CPU 0 stops CPUs 0 to P - 1 (-DP=6), and its own function is called, for Spin: gate, begin, enter, four repeat advance,
 * finish, repeat poll. The others: repeat enter, four repeat advance, finish. One transition for each access to a word, in
 * the order of docs/formats/words.md. posts.pml says how to run it, and what makes its states those of `smp explore`.
 */
#ifndef P
#define P 3
#endif
#define ALL ((1 << P) - 1)
#define BIT (1 << me)

byte gate;
byte kind, mask, actives, func, arg, state, ack, roll, todo, result, done;

/* The last to acknowledge raises the phase; at 4 interrupts are on again, and the loop is left. */
inline acknowledge()
{
	if
	:: d_step { ack == 1 -> ack = 0; acked++ };
	   ack = P;
	   if
	   :: d_step { acked < 4 -> state = acked + 1 }
	   :: d_step { acked == 4 -> state = 5; is_off = 0 }; break
	   fi
	:: d_step { ack != 1 && acked < 3 -> ack--; acked++ }
	:: d_step { ack != 1 && acked == 3 -> ack--; acked++; is_off = 0 }; break
	fi
}

#define FORGET my_kind = 0; my_mask = 0; my_actives = 0; acked = 0

/* enter, advance, finish; the label `again` is in front of it. An inline may not begin with a do: pan then has two control
 * states for the head of the loop. */
inline serve()
{
	if
	:: !(roll & BIT); goto again
	:: d_step { roll & BIT -> roll = roll & ~BIT; slot = 1 }
	fi;
	my_kind = kind;
	my_mask = mask;
	my_actives = actives;
	do
	:: state == acked	/* in vain */
	:: d_step { state != acked && state == 3 && (my_actives & BIT) -> skip };
	   f = func;
	   d_step { i = arg; f = 0; i = 0 };
	   acknowledge()
	:: d_step { state != acked && !(state == 3 && (my_actives & BIT)) ->
		if :: state == 2 -> is_off = 1 :: else fi };
	   acknowledge()
	od;
	if
	:: d_step { todo == 1 -> todo = 0; FORGET };
	   d_step { done = 1; slot = 0 }
	:: d_step { todo != 1 -> todo--; FORGET; slot = 0 }
	fi
}

active proctype source()
{
	byte me = _pid;
	byte my_kind, my_mask, my_actives, acked, f, i;
	bit slot, is_off, is_open;
	d_step { gate == 0 -> gate = me + 1 };
	kind = 1;
	mask = ALL;
	actives = 1;
	func = 5;
	arg = 9;
	result = 0;
	todo = P;
	done = 0;
	ack = P;
	state = 1;
	d_step { roll = ALL; is_open = 1 };
again:	serve();
	do
	:: done == 0	/* in vain */
	:: done != 0;
	   d_step { i = result; i = 0; is_open = 0 };
	   break
	od;
end:	false
}

active [P - 1] proctype stopped()
{
	byte me = _pid;
	byte my_kind, my_mask, my_actives, acked, f, i;
	bit slot, is_off;
again:	serve();
end:	false
}
