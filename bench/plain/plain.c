/* One switch over the opcode byte, the registers in a struct. `r` is that struct
 * and `m` the memory, all through this file.
 *
 * A step is made of four functions that are inlined by force, so that the switch
 * stands in the loop of a run: left to itself, gcc calls it, which costs more
 * than a quarter of the speed. All the rest is left to gcc. */

#include "plain.h"

#include <stdbool.h>

enum { ZERO = 0x80, SUBTRACTED = 0x40, HALF = 0x20, CARRY = 0x10 };
enum { REQUESTED = 0xFF0F, ENABLED = 0xFFFF, HIGH_PAGE = 0xFF00 };
enum { HALT = 0x76, PREFIX = 0xCB, DI = 0xF3 };

#define IN_THE_LOOP static inline __attribute__((always_inline))

static inline uint8_t when(bool condition, uint8_t flag) {
	return condition ? flag : 0;
}

static inline bool has(const struct plain *r, uint8_t flag) {
	return r->f & flag;
}

/* Register pairs */

static inline uint16_t word(uint8_t high, uint8_t low) {
	return (uint16_t) (high << 8 | low);
}

static inline uint16_t bc(const struct plain *r) { return word(r->b, r->c); }
static inline uint16_t de(const struct plain *r) { return word(r->d, r->e); }
static inline uint16_t hl(const struct plain *r) { return word(r->h, r->l); }

static inline void set_bc(struct plain *r, uint16_t value) {
	r->b = (uint8_t) (value >> 8), r->c = (uint8_t) value;
}

static inline void set_de(struct plain *r, uint16_t value) {
	r->d = (uint8_t) (value >> 8), r->e = (uint8_t) value;
}

static inline void set_hl(struct plain *r, uint16_t value) {
	r->h = (uint8_t) (value >> 8), r->l = (uint8_t) value;
}

/* HL as it is, leaving it one higher, or one lower. */

static inline uint16_t hl_then_up(struct plain *r) {
	uint16_t address = hl(r);
	set_hl(r, (uint16_t) (address + 1));
	return address;
}

static inline uint16_t hl_then_down(struct plain *r) {
	uint16_t address = hl(r);
	set_hl(r, (uint16_t) (address - 1));
	return address;
}

/* Memory: constants at PC, and the stack */

static inline unsigned pending(const uint8_t *m) {
	return m[ENABLED] & m[REQUESTED] & 0x1F;
}

static inline uint8_t next_byte(struct plain *r, const uint8_t *m) {
	return m[r->pc++];
}

static inline uint16_t next_word(struct plain *r, const uint8_t *m) {
	uint8_t low = next_byte(r, m);
	return word(next_byte(r, m), low);
}

static inline void push(struct plain *r, uint8_t *m, uint16_t value) {
	m[--r->sp] = (uint8_t) (value >> 8);
	m[--r->sp] = (uint8_t) value;
}

static inline uint16_t pop(struct plain *r, const uint8_t *m) {
	uint8_t low = m[r->sp++];
	return word(m[r->sp++], low);
}

/* Bytes */

static inline void add_with(struct plain *r, uint8_t x, unsigned carry) {
	unsigned half = (r->a & 0x0Fu) + (x & 0x0Fu) + carry;
	unsigned full = r->a + x + carry;
	r->a = (uint8_t) full;
	r->f = when(r->a == 0, ZERO) | when(half > 0x0F, HALF) | when(full > 0xFF, CARRY);
}

static inline uint8_t difference(struct plain *r, uint8_t x, unsigned carry) {
	unsigned half = (r->a & 0x0Fu) - (x & 0x0Fu) - carry;
	unsigned full = r->a - x - carry;
	uint8_t result = (uint8_t) full;
	r->f = when(result == 0, ZERO) | SUBTRACTED | when(half > 0x0F, HALF) |
	       when(full > 0xFF, CARRY);
	return result;
}

static inline void add(struct plain *r, uint8_t x) { add_with(r, x, 0); }
static inline void adc(struct plain *r, uint8_t x) { add_with(r, x, has(r, CARRY)); }
static inline void sub(struct plain *r, uint8_t x) { r->a = difference(r, x, 0); }
static inline void sbc(struct plain *r, uint8_t x) { r->a = difference(r, x, has(r, CARRY)); }
static inline void cp(struct plain *r, uint8_t x) { difference(r, x, 0); }

static inline void and(struct plain *r, uint8_t x) {
	r->a &= x;
	r->f = when(r->a == 0, ZERO) | HALF;
}

static inline void xor(struct plain *r, uint8_t x) {
	r->a ^= x;
	r->f = when(r->a == 0, ZERO);
}

static inline void or(struct plain *r, uint8_t x) {
	r->a |= x;
	r->f = when(r->a == 0, ZERO);
}

static inline uint8_t inc(struct plain *r, uint8_t x) {
	uint8_t result = (uint8_t) (x + 1);
	r->f = (r->f & CARRY) | when(result == 0, ZERO) | when((result & 0x0F) == 0, HALF);
	return result;
}

static inline uint8_t dec(struct plain *r, uint8_t x) {
	uint8_t result = (uint8_t) (x - 1);
	r->f = (r->f & CARRY) | when(result == 0, ZERO) | SUBTRACTED |
	       when((result & 0x0F) == 0x0F, HALF);
	return result;
}

static inline void daa(struct plain *r) {
	bool after_addition = !has(r, SUBTRACTED);
	bool low = has(r, HALF) || (after_addition && (r->a & 0x0F) > 0x09);
	bool high = has(r, CARRY) || (after_addition && r->a > 0x99);
	uint8_t adjustment = when(low, 0x06) | when(high, 0x60);
	r->a = (uint8_t) (after_addition ? r->a + adjustment : r->a - adjustment);
	r->f = (r->f & SUBTRACTED) | when(r->a == 0, ZERO) | when(high, CARRY);
}

static inline void cpl(struct plain *r) {
	r->a = (uint8_t) ~r->a;
	r->f |= SUBTRACTED | HALF;
}

static inline void scf(struct plain *r) { r->f = (r->f & ZERO) | CARRY; }
static inline void ccf(struct plain *r) { r->f = (r->f & (ZERO | CARRY)) ^ CARRY; }

/* Rotates, shifts and bit tests */

static inline uint8_t shifted(struct plain *r, unsigned result, bool carry) {
	uint8_t byte = (uint8_t) result;
	r->f = when(byte == 0, ZERO) | when(carry, CARRY);
	return byte;
}

static inline uint8_t rlc(struct plain *r, uint8_t x) {
	return shifted(r, (unsigned) (x << 1 | x >> 7), x & 0x80);
}

static inline uint8_t rrc(struct plain *r, uint8_t x) {
	return shifted(r, (unsigned) (x >> 1 | x << 7), x & 0x01);
}

static inline uint8_t rl(struct plain *r, uint8_t x) {
	return shifted(r, (unsigned) (x << 1 | has(r, CARRY)), x & 0x80);
}

static inline uint8_t rr(struct plain *r, uint8_t x) {
	return shifted(r, (unsigned) (x >> 1 | has(r, CARRY) << 7), x & 0x01);
}

static inline uint8_t sla(struct plain *r, uint8_t x) {
	return shifted(r, (unsigned) (x << 1), x & 0x80);
}

static inline uint8_t sra(struct plain *r, uint8_t x) {
	return shifted(r, (unsigned) (x >> 1 | (x & 0x80)), x & 0x01);
}

static inline uint8_t swap(struct plain *r, uint8_t x) {
	return shifted(r, (unsigned) (x << 4 | x >> 4), false);
}

static inline uint8_t srl(struct plain *r, uint8_t x) {
	return shifted(r, (unsigned) (x >> 1), x & 0x01);
}

/* The forms on A without the prefix clear Z. */
static inline void rotate_a(struct plain *r, uint8_t (*rotate)(struct plain *, uint8_t)) {
	r->a = rotate(r, r->a);
	r->f &= CARRY;
}

static inline void bit(struct plain *r, unsigned index, uint8_t x) {
	r->f = (r->f & CARRY) | when(!(x >> index & 1), ZERO) | HALF;
}

/* Words */

static inline void add_hl(struct plain *r, uint16_t x) {
	unsigned half = (hl(r) & 0x0FFFu) + (x & 0x0FFFu);
	unsigned full = (unsigned) hl(r) + x;
	set_hl(r, (uint16_t) full);
	r->f = (r->f & ZERO) | when(half > 0x0FFF, HALF) | when(full > 0xFFFF, CARRY);
}

static inline uint16_t sp_plus(struct plain *r, uint8_t offset) {
	unsigned half = (r->sp & 0x0Fu) + (offset & 0x0Fu);
	unsigned full = (r->sp & 0xFFu) + offset;
	r->f = when(half > 0x0F, HALF) | when(full > 0xFF, CARRY);
	return (uint16_t) (r->sp + (int8_t) offset);
}

/* Jumps: each answers its cycles, more where the condition holds. */

static inline unsigned jr(struct plain *r, const uint8_t *m, bool condition) {
	int8_t offset = (int8_t) next_byte(r, m);
	if (!condition) {
		return 2;
	}
	r->pc = (uint16_t) (r->pc + offset);
	return 3;
}

static inline unsigned jp(struct plain *r, const uint8_t *m, bool condition) {
	uint16_t address = next_word(r, m);
	if (!condition) {
		return 3;
	}
	r->pc = address;
	return 4;
}

static inline unsigned call(struct plain *r, uint8_t *m, bool condition) {
	uint16_t address = next_word(r, m);
	if (!condition) {
		return 3;
	}
	push(r, m, r->pc);
	r->pc = address;
	return 6;
}

static inline unsigned ret_if(struct plain *r, const uint8_t *m, bool condition) {
	if (!condition) {
		return 2;
	}
	r->pc = pop(r, m);
	return 5;
}

static inline unsigned rst(struct plain *r, uint8_t *m, uint16_t address) {
	push(r, m, r->pc);
	r->pc = address;
	return 4;
}

/* Rows of the switch: eight cases each, for B C D E H L [HL] A in this order.
 * The operand's value stands in `x`. */

/* LD register,operand */
#define LOADS(first, target)                                \
	case (first) + 0: r->target = r->b; return 1;       \
	case (first) + 1: r->target = r->c; return 1;       \
	case (first) + 2: r->target = r->d; return 1;       \
	case (first) + 3: r->target = r->e; return 1;       \
	case (first) + 4: r->target = r->h; return 1;       \
	case (first) + 5: r->target = r->l; return 1;       \
	case (first) + 6: r->target = m[hl(r)]; return 2;   \
	case (first) + 7: r->target = r->a; return 1;

/* An operation that only reads its operand. `base` is the cost of a register. */
#define READS(first, base, at_hl, operation)                         \
	case (first) + 0: x = r->b; operation; return (base);        \
	case (first) + 1: x = r->c; operation; return (base);        \
	case (first) + 2: x = r->d; operation; return (base);        \
	case (first) + 3: x = r->e; operation; return (base);        \
	case (first) + 4: x = r->h; operation; return (base);        \
	case (first) + 5: x = r->l; operation; return (base);        \
	case (first) + 6: x = m[hl(r)]; operation; return (at_hl);   \
	case (first) + 7: x = r->a; operation; return (base);

/* An operation after the prefix that puts a value back. */
#define CHANGES(first, value)                                              \
	case (first) + 0: x = r->b; r->b = (uint8_t) (value); return 2;    \
	case (first) + 1: x = r->c; r->c = (uint8_t) (value); return 2;    \
	case (first) + 2: x = r->d; r->d = (uint8_t) (value); return 2;    \
	case (first) + 3: x = r->e; r->e = (uint8_t) (value); return 2;    \
	case (first) + 4: x = r->h; r->h = (uint8_t) (value); return 2;    \
	case (first) + 5: x = r->l; r->l = (uint8_t) (value); return 2;    \
	case (first) + 6: x = m[hl(r)]; m[hl(r)] = (uint8_t) (value); return 4; \
	case (first) + 7: x = r->a; r->a = (uint8_t) (value); return 2;

/* The instruction of the byte after the prefix. Answers its cycles. */
IN_THE_LOOP unsigned execute_prefixed(struct plain *r, uint8_t *m, uint8_t opcode) {
	uint8_t x;
	switch (opcode) {
	CHANGES(0x00, rlc(r, x))
	CHANGES(0x08, rrc(r, x))
	CHANGES(0x10, rl(r, x))
	CHANGES(0x18, rr(r, x))
	CHANGES(0x20, sla(r, x))
	CHANGES(0x28, sra(r, x))
	CHANGES(0x30, swap(r, x))
	CHANGES(0x38, srl(r, x))

	READS(0x40, 2, 3, bit(r, 0, x))
	READS(0x48, 2, 3, bit(r, 1, x))
	READS(0x50, 2, 3, bit(r, 2, x))
	READS(0x58, 2, 3, bit(r, 3, x))
	READS(0x60, 2, 3, bit(r, 4, x))
	READS(0x68, 2, 3, bit(r, 5, x))
	READS(0x70, 2, 3, bit(r, 6, x))
	READS(0x78, 2, 3, bit(r, 7, x))

	CHANGES(0x80, x & ~0x01)
	CHANGES(0x88, x & ~0x02)
	CHANGES(0x90, x & ~0x04)
	CHANGES(0x98, x & ~0x08)
	CHANGES(0xA0, x & ~0x10)
	CHANGES(0xA8, x & ~0x20)
	CHANGES(0xB0, x & ~0x40)
	CHANGES(0xB8, x & ~0x80)

	CHANGES(0xC0, x | 0x01)
	CHANGES(0xC8, x | 0x02)
	CHANGES(0xD0, x | 0x04)
	CHANGES(0xD8, x | 0x08)
	CHANGES(0xE0, x | 0x10)
	CHANGES(0xE8, x | 0x20)
	CHANGES(0xF0, x | 0x40)
	CHANGES(0xF8, x | 0x80)
	}
	__builtin_unreachable(); /* all 256 bytes have a case */
}

/* The instruction of an opcode byte that PC has passed. Answers its cycles; 0,
 * having done nothing, for an undefined byte. */
IN_THE_LOOP unsigned execute(struct plain *r, uint8_t *m, uint8_t opcode) {
	uint8_t x;
	uint16_t w;
	switch (opcode) {
	case 0x00: return 1;                                                   /* NOP */
	case 0x08:                                                             /* LD [n16],SP */
		w = next_word(r, m);
		m[w] = (uint8_t) r->sp;
		m[(uint16_t) (w + 1)] = (uint8_t) (r->sp >> 8);
		return 5;
	case 0x10: next_byte(r, m); r->mode = PLAIN_STOPPED; return 1;         /* STOP */
	case 0x18: return jr(r, m, true);                                      /* JR */
	case 0x20: return jr(r, m, !has(r, ZERO));                             /* JR NZ */
	case 0x28: return jr(r, m, has(r, ZERO));                              /* JR Z */
	case 0x30: return jr(r, m, !has(r, CARRY));                            /* JR NC */
	case 0x38: return jr(r, m, has(r, CARRY));                             /* JR C */

	case 0x01: set_bc(r, next_word(r, m)); return 3;                       /* LD BC,n16 */
	case 0x11: set_de(r, next_word(r, m)); return 3;                       /* LD DE,n16 */
	case 0x21: set_hl(r, next_word(r, m)); return 3;                       /* LD HL,n16 */
	case 0x31: r->sp = next_word(r, m); return 3;                          /* LD SP,n16 */
	case 0x09: add_hl(r, bc(r)); return 2;                                 /* ADD HL,BC */
	case 0x19: add_hl(r, de(r)); return 2;                                 /* ADD HL,DE */
	case 0x29: add_hl(r, hl(r)); return 2;                                 /* ADD HL,HL */
	case 0x39: add_hl(r, r->sp); return 2;                                 /* ADD HL,SP */

	case 0x02: m[bc(r)] = r->a; return 2;                                  /* LD [BC],A */
	case 0x12: m[de(r)] = r->a; return 2;                                  /* LD [DE],A */
	case 0x22: m[hl_then_up(r)] = r->a; return 2;                          /* LD [HLI],A */
	case 0x32: m[hl_then_down(r)] = r->a; return 2;                        /* LD [HLD],A */
	case 0x0A: r->a = m[bc(r)]; return 2;                                  /* LD A,[BC] */
	case 0x1A: r->a = m[de(r)]; return 2;                                  /* LD A,[DE] */
	case 0x2A: r->a = m[hl_then_up(r)]; return 2;                          /* LD A,[HLI] */
	case 0x3A: r->a = m[hl_then_down(r)]; return 2;                        /* LD A,[HLD] */

	case 0x03: set_bc(r, (uint16_t) (bc(r) + 1)); return 2;                /* INC BC */
	case 0x13: set_de(r, (uint16_t) (de(r) + 1)); return 2;                /* INC DE */
	case 0x23: set_hl(r, (uint16_t) (hl(r) + 1)); return 2;                /* INC HL */
	case 0x33: r->sp++; return 2;                                          /* INC SP */
	case 0x0B: set_bc(r, (uint16_t) (bc(r) - 1)); return 2;                /* DEC BC */
	case 0x1B: set_de(r, (uint16_t) (de(r) - 1)); return 2;                /* DEC DE */
	case 0x2B: set_hl(r, (uint16_t) (hl(r) - 1)); return 2;                /* DEC HL */
	case 0x3B: r->sp--; return 2;                                          /* DEC SP */

	case 0x04: r->b = inc(r, r->b); return 1;                              /* INC B */
	case 0x0C: r->c = inc(r, r->c); return 1;                              /* INC C */
	case 0x14: r->d = inc(r, r->d); return 1;                              /* INC D */
	case 0x1C: r->e = inc(r, r->e); return 1;                              /* INC E */
	case 0x24: r->h = inc(r, r->h); return 1;                              /* INC H */
	case 0x2C: r->l = inc(r, r->l); return 1;                              /* INC L */
	case 0x34: m[hl(r)] = inc(r, m[hl(r)]); return 3;                      /* INC [HL] */
	case 0x3C: r->a = inc(r, r->a); return 1;                              /* INC A */

	case 0x05: r->b = dec(r, r->b); return 1;                              /* DEC B */
	case 0x0D: r->c = dec(r, r->c); return 1;                              /* DEC C */
	case 0x15: r->d = dec(r, r->d); return 1;                              /* DEC D */
	case 0x1D: r->e = dec(r, r->e); return 1;                              /* DEC E */
	case 0x25: r->h = dec(r, r->h); return 1;                              /* DEC H */
	case 0x2D: r->l = dec(r, r->l); return 1;                              /* DEC L */
	case 0x35: m[hl(r)] = dec(r, m[hl(r)]); return 3;                      /* DEC [HL] */
	case 0x3D: r->a = dec(r, r->a); return 1;                              /* DEC A */

	case 0x06: r->b = next_byte(r, m); return 2;                           /* LD B,n8 */
	case 0x0E: r->c = next_byte(r, m); return 2;                           /* LD C,n8 */
	case 0x16: r->d = next_byte(r, m); return 2;                           /* LD D,n8 */
	case 0x1E: r->e = next_byte(r, m); return 2;                           /* LD E,n8 */
	case 0x26: r->h = next_byte(r, m); return 2;                           /* LD H,n8 */
	case 0x2E: r->l = next_byte(r, m); return 2;                           /* LD L,n8 */
	case 0x36: m[hl(r)] = next_byte(r, m); return 3;                       /* LD [HL],n8 */
	case 0x3E: r->a = next_byte(r, m); return 2;                           /* LD A,n8 */

	case 0x07: rotate_a(r, rlc); return 1;                                 /* RLCA */
	case 0x0F: rotate_a(r, rrc); return 1;                                 /* RRCA */
	case 0x17: rotate_a(r, rl); return 1;                                  /* RLA */
	case 0x1F: rotate_a(r, rr); return 1;                                  /* RRA */
	case 0x27: daa(r); return 1;                                           /* DAA */
	case 0x2F: cpl(r); return 1;                                           /* CPL */
	case 0x37: scf(r); return 1;                                           /* SCF */
	case 0x3F: ccf(r); return 1;                                           /* CCF */

	LOADS(0x40, b)
	LOADS(0x48, c)
	LOADS(0x50, d)
	LOADS(0x58, e)
	LOADS(0x60, h)
	LOADS(0x68, l)
	case 0x70: m[hl(r)] = r->b; return 2;                                  /* LD [HL],B */
	case 0x71: m[hl(r)] = r->c; return 2;                                  /* LD [HL],C */
	case 0x72: m[hl(r)] = r->d; return 2;                                  /* LD [HL],D */
	case 0x73: m[hl(r)] = r->e; return 2;                                  /* LD [HL],E */
	case 0x74: m[hl(r)] = r->h; return 2;                                  /* LD [HL],H */
	case 0x75: m[hl(r)] = r->l; return 2;                                  /* LD [HL],L */
	case HALT:
		r->mode = r->ime == PLAIN_OFF && pending(m) ? PLAIN_REPEAT : PLAIN_HALTED;
		return 1;
	case 0x77: m[hl(r)] = r->a; return 2;                                  /* LD [HL],A */
	LOADS(0x78, a)

	READS(0x80, 1, 2, add(r, x))
	READS(0x88, 1, 2, adc(r, x))
	READS(0x90, 1, 2, sub(r, x))
	READS(0x98, 1, 2, sbc(r, x))
	READS(0xA0, 1, 2, and(r, x))
	READS(0xA8, 1, 2, xor(r, x))
	READS(0xB0, 1, 2, or(r, x))
	READS(0xB8, 1, 2, cp(r, x))

	case 0xC0: return ret_if(r, m, !has(r, ZERO));                         /* RET NZ */
	case 0xC8: return ret_if(r, m, has(r, ZERO));                          /* RET Z */
	case 0xD0: return ret_if(r, m, !has(r, CARRY));                        /* RET NC */
	case 0xD8: return ret_if(r, m, has(r, CARRY));                         /* RET C */
	case 0xE0: m[HIGH_PAGE + next_byte(r, m)] = r->a; return 3;            /* LDH [n16],A */
	case 0xE8: r->sp = sp_plus(r, next_byte(r, m)); return 4;              /* ADD SP,e8 */
	case 0xF0: r->a = m[HIGH_PAGE + next_byte(r, m)]; return 3;            /* LDH A,[n16] */
	case 0xF8: set_hl(r, sp_plus(r, next_byte(r, m))); return 3;           /* LD HL,SP+e8 */

	case 0xC1: set_bc(r, pop(r, m)); return 3;                             /* POP BC */
	case 0xD1: set_de(r, pop(r, m)); return 3;                             /* POP DE */
	case 0xE1: set_hl(r, pop(r, m)); return 3;                             /* POP HL */
	case 0xF1:                                                             /* POP AF */
		w = pop(r, m);
		r->a = (uint8_t) (w >> 8);
		r->f = (uint8_t) (w & 0xF0);
		return 3;
	case 0xC9: r->pc = pop(r, m); return 4;                                /* RET */
	case 0xD9: r->pc = pop(r, m); r->ime = PLAIN_ON; return 4;             /* RETI */
	case 0xE9: r->pc = hl(r); return 1;                                    /* JP HL */
	case 0xF9: r->sp = hl(r); return 2;                                    /* LD SP,HL */

	case 0xC2: return jp(r, m, !has(r, ZERO));                             /* JP NZ */
	case 0xCA: return jp(r, m, has(r, ZERO));                              /* JP Z */
	case 0xD2: return jp(r, m, !has(r, CARRY));                            /* JP NC */
	case 0xDA: return jp(r, m, has(r, CARRY));                             /* JP C */
	case 0xE2: m[HIGH_PAGE + r->c] = r->a; return 2;                       /* LDH [C],A */
	case 0xEA: m[next_word(r, m)] = r->a; return 4;                        /* LD [n16],A */
	case 0xF2: r->a = m[HIGH_PAGE + r->c]; return 2;                       /* LDH A,[C] */
	case 0xFA: r->a = m[next_word(r, m)]; return 4;                        /* LD A,[n16] */

	case 0xC3: return jp(r, m, true);                                      /* JP */
	case PREFIX: return execute_prefixed(r, m, next_byte(r, m));
	case DI: r->ime = PLAIN_OFF; return 1;
	case 0xFB:                                                             /* EI */
		if (r->ime == PLAIN_OFF) {
			r->ime = PLAIN_ARMING;
		}
		return 1;

	case 0xC4: return call(r, m, !has(r, ZERO));                           /* CALL NZ */
	case 0xCC: return call(r, m, has(r, ZERO));                            /* CALL Z */
	case 0xD4: return call(r, m, !has(r, CARRY));                          /* CALL NC */
	case 0xDC: return call(r, m, has(r, CARRY));                           /* CALL C */
	case 0xCD: return call(r, m, true);                                    /* CALL */

	case 0xC5: push(r, m, bc(r)); return 4;                                /* PUSH BC */
	case 0xD5: push(r, m, de(r)); return 4;                                /* PUSH DE */
	case 0xE5: push(r, m, hl(r)); return 4;                                /* PUSH HL */
	case 0xF5: push(r, m, word(r->a, r->f)); return 4;                     /* PUSH AF */

	case 0xC6: add(r, next_byte(r, m)); return 2;                          /* ADD A,n8 */
	case 0xCE: adc(r, next_byte(r, m)); return 2;                          /* ADC A,n8 */
	case 0xD6: sub(r, next_byte(r, m)); return 2;                          /* SUB A,n8 */
	case 0xDE: sbc(r, next_byte(r, m)); return 2;                          /* SBC A,n8 */
	case 0xE6: and(r, next_byte(r, m)); return 2;                          /* AND A,n8 */
	case 0xEE: xor(r, next_byte(r, m)); return 2;                          /* XOR A,n8 */
	case 0xF6: or(r, next_byte(r, m)); return 2;                           /* OR A,n8 */
	case 0xFE: cp(r, next_byte(r, m)); return 2;                           /* CP A,n8 */

	case 0xC7: return rst(r, m, 0x00);                                     /* RST */
	case 0xCF: return rst(r, m, 0x08);
	case 0xD7: return rst(r, m, 0x10);
	case 0xDF: return rst(r, m, 0x18);
	case 0xE7: return rst(r, m, 0x20);
	case 0xEF: return rst(r, m, 0x28);
	case 0xF7: return rst(r, m, 0x30);
	case 0xFF: return rst(r, m, 0x38);

	case 0xD3: case 0xDB: case 0xDD: case 0xE3: case 0xE4: case 0xEB:
	case 0xEC: case 0xED: case 0xF4: case 0xFC: case 0xFD:
		return 0;
	}
	__builtin_unreachable(); /* all 256 bytes have a case */
}

/* Clears the lowest request and answers its vector, 0 where there is none. */
static inline uint16_t take_request(uint8_t *m) {
	unsigned requests = pending(m);
	if (!requests) {
		return 0;
	}
	unsigned k = (unsigned) __builtin_ctz(requests);
	m[REQUESTED] &= (uint8_t) ~(1u << k);
	return (uint16_t) (0x40 + 8 * k);
}

/* The request is taken between the two stores, of which either may land on it. */
static inline unsigned dispatch(struct plain *r, uint8_t *m) {
	uint16_t pc = r->pc;
	m[--r->sp] = (uint8_t) (pc >> 8);
	r->pc = take_request(m);
	m[--r->sp] = (uint8_t) pc;
	r->ime = PLAIN_OFF;
	r->mode = PLAIN_RUNNING;
	return 5;
}

/* Runs the instruction at PC. Answers its cycles; 0, with the state as it was,
 * where it is undefined. */
IN_THE_LOOP unsigned instruction(struct plain *r, uint8_t *m) {
	uint16_t pc = r->pc;
	uint8_t mode = r->mode;
	bool arming = r->ime == PLAIN_ARMING;
	uint8_t opcode = m[pc];
	r->pc = (uint16_t) (pc + (mode != PLAIN_REPEAT));
	r->mode = PLAIN_RUNNING;
	unsigned cycles = execute(r, m, opcode);
	if (cycles == 0) {
		r->pc = pc;
		r->mode = mode;
	} else if (arming && opcode != DI) {
		r->ime = PLAIN_ON;
		if (opcode == HALT && pending(m)) { /* the handler returns to it */
			r->pc = pc;
			r->mode = PLAIN_RUNNING;
		}
	}
	return cycles;
}

/* One step of a machine that isn't Stopped. Answers its cycles, 0 where the step
 * is refused. */
IN_THE_LOOP unsigned step(struct plain *r, uint8_t *m) {
	unsigned requests = pending(m);
	if (r->ime == PLAIN_ON && requests) {
		return dispatch(r, m);
	}
	if (r->mode == PLAIN_HALTED && !requests) {
		return 1;
	}
	return instruction(r, m);
}

uint8_t plain_run(struct plain *cpu, uint8_t *memory, size_t memory_length,
                  uint32_t budget, uint32_t *spent, uint32_t *steps) {
	uint32_t cycles_spent = 0, steps_taken = 0;
	uint8_t code = PLAIN_DONE;
	if (memory_length != PLAIN_MEMORY_SIZE) {
		code = PLAIN_MEMORY_LENGTH;
	} else if (cpu->f & 0x0F) {
		code = PLAIN_FLAG_BITS;
	} else if (budget > PLAIN_BUDGET_LIMIT) {
		code = PLAIN_BUDGET;
	} else {
		while (cycles_spent < budget) {
			if (cpu->mode == PLAIN_STOPPED) {
				code = PLAIN_IS_STOPPED;
				break;
			}
			unsigned cycles = step(cpu, memory);
			if (cycles == 0) {
				code = PLAIN_UNDEFINED;
				break;
			}
			cycles_spent += cycles;
			++steps_taken;
		}
	}
	*spent = cycles_spent;
	*steps = steps_taken;
	return code;
}

uint8_t plain_step(struct plain *cpu, uint8_t *memory, size_t memory_length,
                   uint8_t *cycles) {
	uint32_t spent, steps;
	uint8_t code = plain_run(cpu, memory, memory_length, 1, &spent, &steps);
	*cycles = (uint8_t) spent;
	return code;
}
