; A loop of everything that games do: loads of each kind, byte and word
; arithmetic, rotates, bit tests, the stack, calls and branches. A 16-bit shift
; register feeds it, so that about half of the branches depend on data.

	.area	_IMAGE (ABS)

SEED	.equ	0xC000			; two bytes, never 0
SUM	.equ	0xC002			; two bytes
COUNT	.equ	0xC004
TABLE	.equ	0xC100			; 256 bytes
STACK	.equ	0xE000

	.org	0x0100
	ld	sp, #STACK
	ld	hl, #0xACE1
	ld	a, l
	ld	(SEED), a
	ld	a, h
	ld	(SEED + 1), a

again:
	call	random			; HL is the new seed
	push	hl
	call	store_byte
	pop	bc
	call	words
	call	bits
	call	rows
	ld	hl, #COUNT
	inc	(hl)
	jr	nz, again
	ldh	a, (0x80)		; once in 256 rounds
	cpl
	ldh	(0x80), a
	jp	again

; One step of the shift register (taps 16, 14, 13, 11).
random:
	ld	hl, #SEED
	ld	a, (hl+)
	ld	h, (hl)
	ld	l, a
	srl	h
	rr	l
	jr	nc, no_taps
	ld	a, h
	xor	a, #0xB4
	ld	h, a
no_taps:
	ld	a, l
	ld	(SEED), a
	ld	a, h
	ld	(SEED + 1), a
	ret

; Puts a byte made from the seed into the table, at the place it names.
store_byte:
	ld	d, #>TABLE
	ld	e, h
	ld	a, (de)
	add	a, l
	rlca
	adc	a, h
	ld	(de), a
	cp	a, #0x80
	ret	c
	swap	a
	and	a, #0x0F
	or	a, e
	ld	e, a
	ld	a, (de)
	dec	a
	ld	(de), a
	ret

; A running sum of words, halved when it passes 0x8000. BC is the seed.
words:
	ld	hl, #SUM
	ld	e, (hl)
	inc	hl
	ld	d, (hl)
	ld	h, d
	ld	l, e
	add	hl, bc
	inc	hl
	bit	7, h
	jr	z, in_range
	srl	h
	rr	l
in_range:
	ld	a, l
	sub	a, e
	ld	e, a
	ld	a, h
	sbc	a, d
	ld	d, a
	push	de
	ld	de, #SUM
	ld	a, l
	ld	(de), a
	inc	de
	ld	a, h
	ld	(de), a
	pop	de
	dec	bc
	ret

; Bits of the seed steer rotates and set or clear bits of two registers.
bits:
	ld	a, c
	bit	0, b
	jr	nz, odd
	rl	c
	sla	b
	res	3, c
	set	6, b
	jr	joined
odd:
	rr	c
	sra	b
	set	3, c
	res	6, b
joined:
	xor	a, c
	rrca
	rla
	ld	c, a
	bit	4, c
	ret	z
	inc	b
	ret

; Sums eight bytes of the table, from a place that the seed names.
rows:
	push	bc
	ld	h, #>TABLE
	ld	a, c
	and	a, #0xF0
	ld	l, a
	ld	b, #8
	xor	a, a
add_row:
	add	a, (hl)
	inc	l
	dec	b
	jr	nz, add_row
	ld	(hl), a
	ld	hl, #-4
	add	hl, sp
	ld	b, h
	ld	c, l
	pop	bc
	ret
