/* mGBA's bare SM83 core over a flat memory of 65,536 bytes, one step at a call.
 *
 * Everything an instruction or a dispatch does is mGBA's: decoding, arithmetic,
 * flags, the order and number of accesses, the cycles. The bare core asks the
 * board around it for the rest, and this file is that board: memory without
 * banks or devices, IE and IF as two bytes of it, and the hooks below, which do
 * what the hooks of mGBA's own console board do. */

#include <mgba/internal/sm83/sm83.h>

#include <stdint.h>
#include <stdlib.h>

enum { IME_OFF, IME_ARMING, IME_ON };
enum { MODE_RUNNING, MODE_REPEAT, MODE_HALTED, MODE_STOPPED };
enum { IF_ADDRESS = 0xFF0F, IE_ADDRESS = 0xFFFF };

/* The layout is repeated in src/lib.rs. */
struct shim_state {
	uint8_t a, f, b, c, d, e, h, l;
	uint16_t sp, pc;
	uint8_t ime, mode;
};

/* The layout is repeated in src/lib.rs. */
struct shim_effect {
	uint32_t cycles;  /* ticks of the core */
	uint32_t fetched; /* bytes read through the program counter */
	uint8_t illegal;  /* the core called its illegal-opcode hook */
};

struct board {
	struct SM83Core cpu; /* first, so that a hook can find the board */
	struct mCPUComponent component;
	uint8_t *memory;
	uint32_t fetched;
	bool ime;
	bool stopped;
	bool illegal;
};

static struct board *board_of(struct SM83Core *cpu) {
	return (struct board *) cpu;
}

static unsigned pending(const struct board *board) {
	return board->memory[IE_ADDRESS] & board->memory[IF_ADDRESS] & 0x1F;
}

/* Memory */

static uint8_t fetch(struct SM83Core *cpu, uint16_t address) {
	++board_of(cpu)->fetched;
	return board_of(cpu)->memory[address];
}

static uint8_t load(struct SM83Core *cpu, uint16_t address) {
	return board_of(cpu)->memory[address];
}

static void store(struct SM83Core *cpu, uint16_t address, int8_t value) {
	board_of(cpu)->memory[address] = (uint8_t) value;
}

static void region(struct SM83Core *cpu, uint16_t address) {
	(void) cpu, (void) address;
}

/* Hooks */

static void no_reset(struct SM83Core *cpu) {
	(void) cpu;
}

/* The only event is an EI or RETI that takes effect, one cycle after the call. */
static void events(struct SM83Core *cpu) {
	board_of(cpu)->ime = true;
	cpu->nextEvent = INT32_MAX;
}

static void set_interrupts(struct SM83Core *cpu, bool enable) {
	if (enable) {
		cpu->nextEvent = cpu->cycles + 4 * cpu->tMultiplier;
	} else {
		board_of(cpu)->ime = false;
		cpu->nextEvent = INT32_MAX;
	}
}

/* Called by the core between the two stores of a dispatch. */
static uint16_t vector(struct SM83Core *cpu) {
	struct board *board = board_of(cpu);
	unsigned requests = pending(board);
	for (unsigned k = 0; k < 5; ++k) {
		if (requests & (1u << k)) {
			board->memory[IF_ADDRESS] &= (uint8_t) ~(1u << k);
			return (uint16_t) (0x40 + 8 * k);
		}
	}
	return 0;
}

static void halt(struct SM83Core *cpu) {
	struct board *board = board_of(cpu);
	if (!pending(board)) {
		cpu->halted = true;
	} else if (!board->ime) {
		cpu->executionState = SM83_CORE_HALT_BUG;
	}
}

static void stop(struct SM83Core *cpu) {
	board_of(cpu)->stopped = true;
}

static void illegal(struct SM83Core *cpu) {
	board_of(cpu)->illegal = true;
}

static void no_init(void *cpu, struct mCPUComponent *component) {
	(void) cpu, (void) component;
}

struct board *shim_new(void) {
	struct board *board = calloc(1, sizeof *board);
	if (!board) {
		return NULL;
	}
	board->component.init = no_init;
	board->cpu.memory.cpuLoad8 = fetch;
	board->cpu.memory.load8 = load;
	board->cpu.memory.store8 = store;
	board->cpu.memory.setActiveRegion = region;
	board->cpu.irqh.reset = no_reset;
	board->cpu.irqh.processEvents = events;
	board->cpu.irqh.setInterrupts = set_interrupts;
	board->cpu.irqh.irqVector = vector;
	board->cpu.irqh.halt = halt;
	board->cpu.irqh.stop = stop;
	board->cpu.irqh.hitIllegal = illegal;
	SM83SetComponents(&board->cpu, &board->component, 0, NULL);
	SM83Init(&board->cpu);
	SM83Reset(&board->cpu);
	return board;
}

void shim_free(struct board *board) {
	SM83Deinit(&board->cpu);
	free(board);
}

static void put(struct board *board, const struct shim_state *state) {
	struct SM83Core *cpu = &board->cpu;
	cpu->a = state->a, cpu->f.packed = state->f;
	cpu->b = state->b, cpu->c = state->c;
	cpu->d = state->d, cpu->e = state->e;
	cpu->h = state->h, cpu->l = state->l;
	cpu->sp = state->sp, cpu->pc = state->pc;
	board->ime = state->ime == IME_ON;
	board->stopped = board->illegal = false;
	board->fetched = 0;
	cpu->halted = false;
	cpu->irqPending = board->ime && pending(board);
	cpu->executionState = state->mode == MODE_REPEAT ? SM83_CORE_HALT_BUG : SM83_CORE_FETCH;
	cpu->cycles = 0;
	/* An EI calls its hook in the last quarter of its cycle, so the event of an
	 * armed switch falls in the last quarter of the first cycle of this step. */
	cpu->nextEvent = state->ime == IME_ARMING ? 3 * cpu->tMultiplier : INT32_MAX;
}

static uint8_t mode_of(const struct board *board) {
	if (board->stopped) {
		return MODE_STOPPED;
	}
	if (board->cpu.executionState == SM83_CORE_HALT_BUG) {
		return MODE_REPEAT;
	}
	return board->cpu.halted ? MODE_HALTED : MODE_RUNNING;
}

static uint8_t ime_of(const struct board *board) {
	if (board->ime) {
		return IME_ON;
	}
	return board->cpu.nextEvent == INT32_MAX ? IME_OFF : IME_ARMING;
}

static void take(const struct board *board, struct shim_state *state) {
	const struct SM83Core *cpu = &board->cpu;
	state->a = cpu->a, state->f = cpu->f.packed;
	state->b = cpu->b, state->c = cpu->c;
	state->d = cpu->d, state->e = cpu->e;
	state->h = cpu->h, state->l = cpu->l;
	state->sp = cpu->sp, state->pc = cpu->pc;
	state->ime = ime_of(board);
	state->mode = mode_of(board);
}

/* One instruction or one dispatch. Idling is no act of the bare core: the board
 * passes a halted cycle without ticking it. */
struct shim_effect shim_step(struct board *board, struct shim_state *state, uint8_t *memory) {
	struct shim_effect effect = { .cycles = 1 };
	struct SM83Core *cpu = &board->cpu;
	board->memory = memory;
	if (state->mode == MODE_HALTED && !pending(board)) {
		return effect;
	}
	put(board, state);
	SM83Tick(cpu);
	while (cpu->executionState != SM83_CORE_FETCH && cpu->executionState != SM83_CORE_HALT_BUG) {
		SM83Tick(cpu);
		++effect.cycles;
	}
	take(board, state);
	effect.fetched = board->fetched;
	effect.illegal = board->illegal;
	return effect;
}
