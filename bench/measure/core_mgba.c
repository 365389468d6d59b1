/* mGBA's bare SM83 core over a flat memory.
 *
 * The core asks a board for memory, interrupts and events; this file is the
 * smallest board that keeps document 01's rules on the workloads. A run is one
 * call of SM83Run, the core's own loop, until an event that marks the end of the
 * budget: the fastest way there is to drive the core. Requests are looked at when
 * their two bytes are stored to or the switch changes, as mGBA's design has it,
 * and not once a step.
 *
 * Idling is the one thing that the core leaves to its board. Here the core ticks
 * through each idle cycle in its stalled state, and the board looks for a request
 * before each, so that an idle cycle is a step as in document 01. (The board of
 * mGBA's console jumps to its next event instead; a flat memory has none.) */

#include "core.h"
#include "saved.h"

#include <mgba/internal/sm83/sm83.h>

#include <string.h>

enum { REQUESTED = 0xFF0F, ENABLED = 0xFFFF };
enum { NEVER = INT32_MAX };

static struct board {
	struct SM83Core cpu; /* first, so that a hook can find the board */
	struct mCPUComponent component;
	int32_t end;         /* when the budget is spent, in the core's time */
	int32_t armed;       /* when an EI takes effect */
	bool ime, stopped, illegal, ready;
	uint8_t head[HEAD_SIZE];
	_Alignas(4096) uint8_t memory[MEMORY_SIZE];
} board;

static struct board *board_of(struct SM83Core *cpu) {
	return (struct board *) cpu;
}

/* The core's time in one cycle. */
static int32_t cycle(const struct board *b) {
	return 4 * b->cpu.tMultiplier;
}

static unsigned pending(const struct board *b) {
	return b->memory[ENABLED] & b->memory[REQUESTED] & 0x1F;
}

static void look_for_requests(struct board *b) {
	b->cpu.irqPending = b->ime && pending(b);
}

static void set_next_event(struct board *b) {
	b->cpu.nextEvent = b->end < b->armed ? b->end : b->armed;
}

/* Makes SM83Run return when the instruction is over. */
static void leave(struct board *b) {
	b->cpu.nextEvent = b->cpu.cycles;
}

/* Memory */

static uint8_t load_byte(struct SM83Core *cpu, uint16_t address) {
	return board_of(cpu)->memory[address];
}

static void store_byte(struct SM83Core *cpu, uint16_t address, int8_t value) {
	board_of(cpu)->memory[address] = (uint8_t) value;
	if (address == REQUESTED || address == ENABLED) {
		look_for_requests(board_of(cpu));
	}
}

static void set_region(struct SM83Core *cpu, uint16_t address) {
	(void) cpu, (void) address;
}

/* Hooks */

static void nothing(struct SM83Core *cpu) {
	(void) cpu;
}

static void init(void *cpu, struct mCPUComponent *component) {
	(void) cpu, (void) component;
}

static void process_events(struct SM83Core *cpu) {
	struct board *b = board_of(cpu);
	if (cpu->cycles >= b->armed) {
		b->armed = NEVER;
		b->ime = true;
		look_for_requests(b);
	}
	if (cpu->cycles >= b->end) {
		b->end = NEVER;
	}
	set_next_event(b);
}

static void set_interrupts(struct SM83Core *cpu, bool enable) {
	struct board *b = board_of(cpu);
	b->armed = enable ? cpu->cycles + cycle(b) : NEVER;
	if (!enable) {
		b->ime = false;
		look_for_requests(b);
	}
	set_next_event(b);
}

/* The vector of the lowest request, which is cleared. */
static uint16_t take_request(struct SM83Core *cpu) {
	struct board *b = board_of(cpu);
	unsigned requests = pending(b);
	if (!requests) {
		return 0;
	}
	unsigned k = (unsigned) __builtin_ctz(requests);
	b->memory[REQUESTED] &= (uint8_t) ~(1u << k);
	return (uint16_t) (0x40 + 8 * k);
}

static void halt(struct SM83Core *cpu) {
	struct board *b = board_of(cpu);
	if (!pending(b)) {
		cpu->halted = true;
		leave(b);
	} else if (!b->ime) {
		cpu->executionState = SM83_CORE_HALT_BUG;
	}
}

static void stop(struct SM83Core *cpu) {
	board_of(cpu)->stopped = true;
	leave(board_of(cpu));
}

static void hit_illegal(struct SM83Core *cpu) {
	board_of(cpu)->illegal = true;
	leave(board_of(cpu));
}

/* The core's functions are not called before the first load. */
static void make_ready(struct board *b) {
	if (b->ready) {
		return;
	}
	b->component.init = init;
	b->cpu.memory.cpuLoad8 = load_byte;
	b->cpu.memory.load8 = load_byte;
	b->cpu.memory.store8 = store_byte;
	b->cpu.memory.setActiveRegion = set_region;
	b->cpu.irqh.reset = nothing;
	b->cpu.irqh.processEvents = process_events;
	b->cpu.irqh.setInterrupts = set_interrupts;
	b->cpu.irqh.irqVector = take_request;
	b->cpu.irqh.halt = halt;
	b->cpu.irqh.stop = stop;
	b->cpu.irqh.hitIllegal = hit_illegal;
	SM83SetComponents(&b->cpu, &b->component, 0, NULL);
	SM83Init(&b->cpu);
	SM83Reset(&b->cpu);
	b->ready = true;
}

static void load(const uint8_t *image) {
	struct board *b = &board;
	struct SM83Core *cpu = &b->cpu;
	struct plain s = read_head(image);
	make_ready(b);
	memcpy(b->head, image, HEAD_SIZE);
	memcpy(b->memory, image + HEAD_SIZE, MEMORY_SIZE);
	cpu->a = s.a, cpu->f.packed = s.f, cpu->b = s.b, cpu->c = s.c;
	cpu->d = s.d, cpu->e = s.e, cpu->h = s.h, cpu->l = s.l;
	cpu->sp = s.sp, cpu->pc = s.pc;
	cpu->halted = s.mode == PLAIN_HALTED;
	cpu->executionState = s.mode == PLAIN_REPEAT ? SM83_CORE_HALT_BUG : SM83_CORE_FETCH;
	cpu->cycles = 0;
	b->ime = s.ime == PLAIN_ON;
	b->armed = s.ime == PLAIN_ARMING ? 3 * cpu->tMultiplier : NEVER;
	b->stopped = s.mode == PLAIN_STOPPED;
	b->illegal = false;
	look_for_requests(b);
}

static void idle(struct board *b, int32_t end) {
	b->cpu.nextEvent = NEVER;
	while (b->cpu.cycles < end && !pending(b)) {
		b->cpu.executionState = SM83_CORE_STALL;
		SM83Tick(&b->cpu);
	}
}

static uint8_t code_of(const struct board *b) {
	if (b->stopped) {
		return PLAIN_IS_STOPPED;
	}
	return b->illegal ? PLAIN_UNDEFINED : PLAIN_DONE;
}

static struct ran run(uint32_t budget) {
	struct board *b = &board;
	struct SM83Core *cpu = &b->cpu;
	int32_t end = (int32_t) budget * cycle(b);
	if (b->armed != NEVER) {
		b->armed -= cpu->cycles;
	}
	cpu->cycles = 0;
	while (cpu->cycles < end && !b->stopped && !b->illegal) {
		if (cpu->halted && !pending(b)) {
			idle(b, end);
			continue;
		}
		cpu->halted = false;
		b->end = end;
		set_next_event(b);
		SM83Run(cpu);
	}
	return (struct ran) { .code = code_of(b), .spent = (uint32_t) (cpu->cycles / cycle(b)) };
}

static uint8_t ime_of(const struct board *b) {
	if (b->ime) {
		return PLAIN_ON;
	}
	return b->armed == NEVER ? PLAIN_OFF : PLAIN_ARMING;
}

static uint8_t mode_of(const struct board *b) {
	if (b->stopped) {
		return PLAIN_STOPPED;
	}
	if (b->cpu.executionState == SM83_CORE_HALT_BUG) {
		return PLAIN_REPEAT;
	}
	return b->cpu.halted ? PLAIN_HALTED : PLAIN_RUNNING;
}

static void save(uint8_t *image) {
	struct board *b = &board;
	const struct SM83Core *cpu = &b->cpu;
	struct plain s = {
		.a = cpu->a, .f = cpu->f.packed, .b = cpu->b, .c = cpu->c,
		.d = cpu->d, .e = cpu->e, .h = cpu->h, .l = cpu->l,
		.sp = cpu->sp, .pc = cpu->pc, .ime = ime_of(b), .mode = mode_of(b),
	};
	write_head(s, b->head);
	memcpy(image, b->head, HEAD_SIZE);
	memcpy(image + HEAD_SIZE, b->memory, MEMORY_SIZE);
}

const struct core mgba_core = { "mGBA", false, load, run, save };
