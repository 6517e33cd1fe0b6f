/*
 * The pure machine in plain C, for explore.c: the words, steps and refusals of docs/formats/words.md, one access to a word
 * a step, for up to 8 CPUs, without patches, keys and sites; and programs of its commands, with the rule for a command
 * in vain of docs/formats/explorations.md.
 */
#include <stdbool.h>
#include <stddef.h>
#include <stdint.h>
#include <string.h>

typedef uint8_t byte;

enum { CPUS = 8, OF_ONE = 12, RECORDS = CPUS * OF_ONE, MOST_LINES = 16 };
enum { LOCK = 1, ASYNC = 0, SYNC = 16 };
enum { SYNC_RECORD = 0, ASYNC_RECORD = 1, FIRST_TARGET = 2, USER_RECORD = 10 };
enum { ONE, MULTI };
enum { DISABLE_IRQ = 2, RUN, EXIT };

enum command { POST, SEND, DONE, HANDLE, GATE, UNGATE, BEGIN, ENTER, ADVANCE, RUNONE, FINISH, POLL };

/* A command of a CPU's program; where it was in vain it is made again so often, or without end. */
enum { EVER = 255 };
struct line {
	byte cpu, again, command;
	byte k, to, class, func, info, tries;
	byte kind, mask, active, arg;
	byte slot, answer;
};

/* The step that a CPU makes next. */
enum step {
	OUTSIDE,
	POST_LOOK, POST_LOCK, POST_FUNC, POST_INFO, POST_COUNT, POST_HEAD, POST_NEXT, POST_EXCHANGE, POST_UNCOUNT, POST_RELEASE,
	STEP_SEND, STEP_DONE,
	HANDLE_ENTER, HANDLE_ACCEPT, HANDLE_IDLE, HANDLE_TAKE, HANDLE_LEAVE,
	TURN_LOAD, TURN_STORE,
	SYNC_NEXT, SYNC_FLAGS, SYNC_FUNC, SYNC_INFO, SYNC_UNLINK, SYNC_BEGIN, SYNC_COUNT, SYNC_END,
	ASYNC_NEXT, ASYNC_FUNC, ASYNC_INFO, ASYNC_BEGIN, ASYNC_COUNT,
	STEP_GATE, STEP_UNGATE,
	BEGIN_KIND, BEGIN_MASK, BEGIN_ACTIVE, BEGIN_FUNC, BEGIN_ARG, BEGIN_RESULT, BEGIN_TODO, BEGIN_DONE, BEGIN_ACK,
	BEGIN_STATE, BEGIN_ROLL,
	ENTER_ROLL, ENTER_KIND, ENTER_MASK, ENTER_ACTIVE,
	ADVANCE_LOOK, ADVANCE_FUNC, ADVANCE_ARG, ADVANCE_ACK, ADVANCE_REFILL, ADVANCE_RAISE,
	RUN_FUNC, RUN_ARG, COMPLETE_RESULT, COMPLETE_TODO, COMPLETE_DONE,
	POLL_DONE, POLL_RESULT
};

/* The parts of a state. All are bytes, so no part has gaps. What a CPU doesn't know any more is 0. */

/* What a CPU has loaded in its command: of a post the head that it found and its tries; of a handle the record at hand
 * and the one after it, and which records are left (at first: are turned) and which of them was passed last. */
struct hold {
	byte here, next, first, last, func, info, tries;
};

/* A CPU's words, and where it stands; `calls` is how many it has turned of its batch. */
struct cpu {
	byte head, intr, hand;
	byte ended, vain;
	byte at, irq_off, open, calls;
	struct hold hold;
};

struct record {
	byte flags, func, info, next;
};

/* The calls from one CPU to another. */
struct tally {
	byte queued, ran;
};

struct slot {
	byte kind, mask, active, func, arg, state, ack, roll, todo, result, done;
};

/* The stop that a CPU is in: that of slot - 1, or none. */
struct visit {
	byte slot, kind, mask, active, acked, answer;
};

/* Of the programs that are explored: the lines of each CPU, and where the parts of a state begin; 0 where it has no such
 * part. The CPUs stand first. */
static struct {
	uint32_t nr, online;
	const struct line *lines[CPUS][MOST_LINES + 1];
	size_t gate, records[RECORDS], tallies[CPUS][CPUS], slots[CPUS], visits[CPUS];
	size_t size;
} plan;

/* A CPU that moves, the state, and the line that it makes. */
struct move {
	byte *state;
	uint32_t me;
	struct cpu *cpu;
	const struct line *line;
};

static struct cpu *cpu_of(byte *state, uint32_t c) { return (struct cpu *)state + c; }
static byte *gate_of(const struct move *m) { return m->state + plan.gate; }
static struct record *record_at(const struct move *m, byte link) { return (void *)(m->state + plan.records[link - 1]); }
static struct tally *tally_of(const struct move *m, uint32_t s, uint32_t d) { return (void *)(m->state + plan.tallies[s][d]); }
static struct slot *slot_of(const struct move *m, uint32_t s) { return (void *)(m->state + plan.slots[s]); }
static struct visit *visit_of(const struct move *m) { return (void *)(m->state + plan.visits[m->me]); }
static bool is_online(uint32_t c) { return c < plan.nr && plan.online >> c & 1; }

/* What a step leads to: the command goes on, has ended, or has ended in vain. */
enum outcome { GOES_ON, ENDS, IN_VAIN };

static enum outcome go(struct move *m, enum step next)
{
	m->cpu->at = next;
	return GOES_ON;
}

/* The function of all calls and stops. */
static void run(byte func, byte number) { (void)func, (void)number; }

/* post */
static enum outcome exchange(struct move *m, byte link)
{
	struct hold *hold = &m->cpu->hold;
	byte *head = &cpu_of(m->state, m->line->to)->head, found = *head;
	if (found == hold->next) {
		*head = link;
		return ENDS;
	}
	hold->tries -= 1;
	hold->next = hold->tries > 0 ? found : 0;
	return go(m, hold->tries > 0 ? POST_NEXT : POST_UNCOUNT);
}

static enum outcome step_post(struct move *m)
{
	const struct line *line = m->line;
	byte link = OF_ONE * m->me + line->k + 1;
	struct record *record = record_at(m, link);
	switch (m->cpu->at) {
	case POST_LOOK:
		if (record->flags & LOCK)
			return IN_VAIN;
		return is_online(line->to) ? go(m, POST_LOCK) : ENDS;
	case POST_LOCK: record->flags = LOCK + line->class; break;
	case POST_FUNC: record->func = line->func; break;
	case POST_INFO: record->info = line->info; break;
	case POST_COUNT: tally_of(m, m->me, line->to)->queued += 1; break;
	case POST_HEAD:
		m->cpu->hold.next = cpu_of(m->state, line->to)->head;
		m->cpu->hold.tries = line->tries;
		break;
	case POST_NEXT: record->next = m->cpu->hold.next; break;
	case POST_EXCHANGE: return exchange(m, link);
	case POST_UNCOUNT: tally_of(m, m->me, line->to)->queued -= 1; break;
	default: record->flags = 0; return ENDS;
	}
	return go(m, m->cpu->at + 1);
}

static enum outcome step_send(struct move *m)
{
	cpu_of(m->state, m->line->to)->intr = 1;
	return ENDS;
}

static enum outcome step_done(struct move *m)
{
	(void)record_at(m, OF_ONE * m->me + m->line->k + 1)->flags;
	return ENDS;
}

/* handle: what comes after the first pass, the second, and the reversal */
static enum outcome go_second(struct move *m, byte link)
{
	m->cpu->hold = (struct hold){ .here = link };
	return go(m, link ? ASYNC_NEXT : HANDLE_LEAVE);
}

static enum outcome go_first(struct move *m, byte link)
{
	struct hold *hold = &m->cpu->hold;
	if (link == 0)
		return go_second(m, hold->first);
	*hold = (struct hold){ .here = link, .first = hold->first, .last = hold->last };
	return go(m, SYNC_NEXT);
}

static enum outcome go_turn(struct move *m, byte newer, byte link)
{
	m->cpu->hold = (struct hold){ .here = link, .first = newer };
	return link ? go(m, TURN_LOAD) : go_first(m, newer);
}

/* The chain of a batch is turned, so that it leads from the oldest record to the newest. */
static enum outcome step_turn(struct move *m)
{
	struct hold *hold = &m->cpu->hold;
	struct record *record = record_at(m, hold->here);
	if (m->cpu->at == TURN_LOAD) {
		hold->next = record->next;
		return go(m, TURN_STORE);
	}
	record->next = hold->first;
	m->cpu->calls += 1;
	return go_turn(m, hold->here, hold->next);
}

/* First pass: runs the SYNC calls, and takes their records out of the chain. */
static enum outcome step_first(struct move *m)
{
	struct hold *hold = &m->cpu->hold;
	struct record *record = record_at(m, hold->here);
	switch (m->cpu->at) {
	case SYNC_NEXT: hold->next = record->next; break;
	case SYNC_FLAGS:
		if (record->flags & SYNC)
			break;
		hold->last = hold->here;
		return go_first(m, hold->next);
	case SYNC_FUNC: hold->func = record->func; break;
	case SYNC_INFO:
		hold->info = record->info;
		if (hold->last)
			break;
		hold->first = hold->next;
		return go(m, SYNC_BEGIN);
	case SYNC_UNLINK: record_at(m, hold->last)->next = hold->next; break;
	case SYNC_BEGIN:
		m->cpu->hand = hold->here + 1;
		run(hold->func, hold->info);
		break;
	case SYNC_COUNT: tally_of(m, (hold->here - 1) / OF_ONE, m->me)->ran += 1; break;
	default: record->flags = 0; return go_first(m, hold->next);
	}
	return go(m, m->cpu->at + 1);
}

/* Second pass: runs the ASYNC calls that are left. */
static enum outcome step_second(struct move *m)
{
	struct hold *hold = &m->cpu->hold;
	struct record *record = record_at(m, hold->here);
	switch (m->cpu->at) {
	case ASYNC_NEXT: hold->next = record->next; break;
	case ASYNC_FUNC: hold->func = record->func; break;
	case ASYNC_INFO: hold->info = record->info; break;
	case ASYNC_BEGIN:
		record->flags = 0;
		run(hold->func, hold->info);
		break;
	default:
		tally_of(m, (hold->here - 1) / OF_ONE, m->me)->ran += 1;
		return go_second(m, hold->next);
	}
	return go(m, m->cpu->at + 1);
}

static enum outcome step_handle(struct move *m)
{
	struct cpu *cpu = m->cpu;
	byte found;
	switch (cpu->at) {
	case HANDLE_ENTER: cpu->hand = 1; return go(m, HANDLE_ACCEPT);
	case HANDLE_ACCEPT:
		found = cpu->intr;
		cpu->intr = 0;
		return go(m, found ? HANDLE_TAKE : HANDLE_IDLE);
	case HANDLE_IDLE: cpu->hand = 0; return IN_VAIN;
	case HANDLE_TAKE:
		found = cpu->head;
		cpu->head = 0;
		cpu->calls = 0;
		return go_turn(m, 0, found);
	case HANDLE_LEAVE: cpu->hand = 0; cpu->calls = 0; return ENDS;
	case TURN_LOAD: case TURN_STORE: return step_turn(m);
	default: return cpu->at < ASYNC_NEXT ? step_first(m) : step_second(m);
	}
}

/* gate and ungate */
static enum outcome step_gate(struct move *m)
{
	if (*gate_of(m) != 0)
		return IN_VAIN;
	*gate_of(m) = m->me + 1;
	return ENDS;
}

static enum outcome step_ungate(struct move *m)
{
	*gate_of(m) = 0;
	return ENDS;
}

/* begin */
static enum outcome step_begin(struct move *m)
{
	const struct line *line = m->line;
	struct slot *slot = slot_of(m, m->me);
	switch (m->cpu->at) {
	case BEGIN_KIND: slot->kind = line->kind; break;
	case BEGIN_MASK: slot->mask = line->mask; break;
	case BEGIN_ACTIVE: slot->active = line->active; break;
	case BEGIN_FUNC: slot->func = line->func; break;
	case BEGIN_ARG: slot->arg = line->arg; break;
	case BEGIN_RESULT: slot->result = 0; break;
	case BEGIN_TODO: slot->todo = __builtin_popcount(line->mask); break;
	case BEGIN_DONE: slot->done = 0; break;
	case BEGIN_ACK: slot->ack = __builtin_popcount(line->mask); break;
	case BEGIN_STATE: slot->state = line->kind == ONE ? 0 : 1; break;
	default:
		slot->roll = line->mask;
		m->cpu->open = 1;
		return ENDS;
	}
	return go(m, m->cpu->at + 1);
}

/* enter */
static enum outcome step_enter(struct move *m)
{
	struct slot *slot = slot_of(m, m->line->slot);
	struct visit *visit = visit_of(m);
	byte bit = 1 << m->me, found;
	switch (m->cpu->at) {
	case ENTER_ROLL:
		found = slot->roll;
		slot->roll &= ~bit;
		if (!(found & bit))
			return IN_VAIN;
		visit->slot = m->line->slot + 1;
		break;
	case ENTER_KIND: visit->kind = slot->kind; break;
	case ENTER_MASK: visit->mask = slot->mask; break;
	default: visit->active = slot->active; return ENDS;
	}
	return go(m, m->cpu->at + 1);
}

/* The load of a stop's argument: its function runs, and answers what the line says. */
static void load_arg(struct move *m, struct visit *visit, byte arg)
{
	run(m->cpu->hold.func, arg);
	m->cpu->hold.func = 0;
	visit->answer = m->line->answer;
}

/* advance: one turn of the loop of multi_cpu_stop */
static enum outcome look(struct move *m, const struct visit *visit, byte state)
{
	if (state == visit->acked)
		return IN_VAIN;
	if (state == DISABLE_IRQ)
		m->cpu->irq_off = 1;
	return go(m, state == RUN && visit->active >> m->me & 1 ? ADVANCE_FUNC : ADVANCE_ACK);
}

static enum outcome end_turn(struct move *m, const struct visit *visit)
{
	if (visit->acked == EXIT)
		m->cpu->irq_off = 0;
	return ENDS;
}

static enum outcome step_advance(struct move *m)
{
	struct visit *visit = visit_of(m);
	struct slot *slot = slot_of(m, visit->slot - 1);
	switch (m->cpu->at) {
	case ADVANCE_LOOK: return look(m, visit, slot->state);
	case ADVANCE_FUNC: m->cpu->hold.func = slot->func; break;
	case ADVANCE_ARG: load_arg(m, visit, slot->arg); break;
	case ADVANCE_ACK:
		visit->acked += 1;
		if (slot->ack-- == 1)
			break;
		return end_turn(m, visit);
	case ADVANCE_REFILL: slot->ack = __builtin_popcount(visit->mask); break;
	default: slot->state = visit->acked + 1; return end_turn(m, visit);
	}
	return go(m, m->cpu->at + 1);
}

/* runone and finish */
static enum outcome step_complete(struct move *m)
{
	struct visit *visit = visit_of(m);
	struct slot *slot = slot_of(m, visit->slot - 1);
	switch (m->cpu->at) {
	case RUN_FUNC: m->cpu->hold.func = slot->func; return go(m, RUN_ARG);
	case RUN_ARG:
		load_arg(m, visit, slot->arg);
		return go(m, visit->answer ? COMPLETE_RESULT : COMPLETE_TODO);
	case COMPLETE_RESULT: slot->result = visit->answer; return go(m, COMPLETE_TODO);
	case COMPLETE_TODO:
		*visit = (struct visit){ .slot = slot->todo == 1 ? visit->slot : 0 };
		return slot->todo-- == 1 ? go(m, COMPLETE_DONE) : ENDS;
	default:
		visit->slot = 0;
		slot->done = 1;
		return ENDS;
	}
}

/* poll */
static enum outcome step_poll(struct move *m)
{
	struct slot *slot = slot_of(m, m->me);
	if (m->cpu->at == POLL_DONE)
		return slot->done ? go(m, POLL_RESULT) : IN_VAIN;
	(void)slot->result;
	m->cpu->open = 0;
	return ENDS;
}

static enum outcome (*const steps[])(struct move *) = {
	[POST] = step_post, [SEND] = step_send, [DONE] = step_done, [HANDLE] = step_handle, [GATE] = step_gate,
	[UNGATE] = step_ungate, [BEGIN] = step_begin, [ENTER] = step_enter, [ADVANCE] = step_advance,
	[RUNONE] = step_complete, [FINISH] = step_complete, [POLL] = step_poll
};

static enum step first_step(const struct move *m)
{
	static const byte first[] = {
		[POST] = POST_LOOK, [SEND] = STEP_SEND, [DONE] = STEP_DONE, [HANDLE] = HANDLE_ENTER, [GATE] = STEP_GATE,
		[UNGATE] = STEP_UNGATE, [BEGIN] = BEGIN_KIND, [ENTER] = ENTER_ROLL, [ADVANCE] = ADVANCE_LOOK,
		[RUNONE] = RUN_FUNC, [FINISH] = COMPLETE_TODO, [POLL] = POLL_DONE
	};
	if (m->line->command == FINISH && visit_of(m)->answer)
		return COMPLETE_RESULT;
	return first[m->line->command];
}

/* Whether the own record k may carry such a call. */
static bool may_post(uint32_t me, const struct line *line)
{
	if (line->k >= OF_ONE || line->tries == 0 || line->to == me)
		return false;
	if (line->k == SYNC_RECORD)
		return line->class == SYNC;
	if (line->k == ASYNC_RECORD || line->k >= USER_RECORD)
		return line->class == ASYNC;
	return line->to == line->k - FIRST_TARGET;
}

/* Whether such a stop may begin: without keys no patch may. */
static bool may_stop(const struct line *line)
{
	bool fits = line->kind == MULTI ? line->mask != 0 : line->kind == ONE && __builtin_popcount(line->mask) == 1;
	return fits && !(line->mask & ~plan.online);
}

/* Whether the command of this line may start. */
static bool may_start(const struct move *m)
{
	const struct line *line = m->line;
	const struct visit *visit = visit_of(m);
	if (!is_online(m->me))
		return false;
	switch (line->command) {
	case POST: return may_post(m->me, line);
	case SEND: return is_online(line->to);
	case DONE: return line->k < OF_ONE;
	case HANDLE: return !m->cpu->irq_off;
	case GATE: return true;
	case UNGATE: return *gate_of(m) == m->me + 1;
	case BEGIN: return !m->cpu->open && *gate_of(m) == m->me + 1 && may_stop(line);
	case ENTER: return line->slot < CPUS && visit->slot == 0;
	case ADVANCE: return visit->slot != 0 && visit->kind != ONE && visit->acked != EXIT;
	case RUNONE: return visit->slot != 0 && visit->kind == ONE;
	case FINISH: return visit->slot != 0 && visit->acked == EXIT;
	default: return m->cpu->open;
	}
}

/* After a command: at the same line again, where it was in vain and may be made again, else at the next. */
static void end_command(struct move *m, enum outcome outcome)
{
	struct cpu *cpu = m->cpu;
	cpu->at = OUTSIDE;
	cpu->hold = (struct hold){ 0 };
	if (outcome == IN_VAIN && m->line->again == EVER)
		return;
	if (outcome == IN_VAIN && cpu->vain < m->line->again) {
		cpu->vain += 1;
		return;
	}
	cpu->ended += 1;
	cpu->vain = 0;
}

/* Makes a CPU's next step; outside a command it begins its next one first. False where it can't move. */
static bool move(byte *state, uint32_t me)
{
	struct cpu *cpu = cpu_of(state, me);
	struct move m = { state, me, cpu, plan.lines[me][cpu->ended] };
	if (cpu->at == OUTSIDE) {
		if (!m.line || !may_start(&m))
			return false;
		cpu->at = first_step(&m);
	}
	enum outcome outcome = steps[m.line->command](&m);
	if (outcome != GOES_ON)
		end_command(&m, outcome);
	return true;
}

/* Whether all CPUs have ended their programs. */
static bool have_ended(byte *state)
{
	for (uint32_t c = 0; c < plan.nr; c++)
		if (cpu_of(state, c)->at != OUTSIDE || plan.lines[c][cpu_of(state, c)->ended])
			return false;
	return true;
}

/* A part of the state begins here, where it has none yet. */
static void place(size_t *part, size_t size)
{
	if (*part == 0) {
		*part = plan.size;
		plan.size += size;
	}
}

/* The parts that a line uses. */
static void place_parts(const struct line *line)
{
	uint32_t me = line->cpu;
	switch (line->command) {
	case POST:
		if (line->to < CPUS)
			place(&plan.tallies[me][line->to], sizeof(struct tally));
		/* fall through */
	case DONE:
		if (line->k < OF_ONE)
			place(&plan.records[OF_ONE * me + line->k], sizeof(struct record));
		break;
	case BEGIN: place(&plan.slots[me], sizeof(struct slot)); /* fall through */
	case GATE: case UNGATE: place(&plan.gate, 1); break;
	case ENTER:
		if (line->slot < CPUS)
			place(&plan.slots[line->slot], sizeof(struct slot));
		/* fall through */
	case ADVANCE: case RUNONE: case FINISH: place(&plan.visits[me], sizeof(struct visit)); break;
	default: break;
	}
}

/* Makes the plan of these programs, of CPUs that are online. */
static void make_plan(uint32_t nr, uint32_t online, const struct line *lines, size_t length)
{
	uint32_t lengths[CPUS] = { 0 };
	memset(&plan, 0, sizeof plan);
	plan.nr = nr;
	plan.online = online;
	plan.size = nr * sizeof(struct cpu);
	for (size_t i = 0; i < length; i++) {
		const struct line *line = &lines[i];
		plan.lines[line->cpu][lengths[line->cpu]++] = line;
		place_parts(line);
	}
	plan.size = (plan.size + sizeof(uint64_t) - 1) / sizeof(uint64_t) * sizeof(uint64_t);
}
