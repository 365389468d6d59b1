; The adding routine of document 01, called in a loop: 8 bytes of decimal digits
; at SOURCE are added to 8 bytes at TOTAL, again and again.

	.area	_IMAGE (ABS)

TOTAL	.equ	0xC000
SOURCE	.equ	0xC100
STACK	.equ	0xE000

	.org	0x0100
	ld	sp, #STACK
again:
	ld	hl, #TOTAL
	ld	de, #SOURCE
	ld	b, #8
	call	adding
	jr	again

	.org	0x0150
adding:
	.db	0xA7			; and a, a: no carry
	.db	0x1A			; ld a, (de)
	.db	0x8E			; adc a, (hl)
	.db	0x27			; daa
	.db	0x22			; ld (hl+), a
	.db	0x13			; inc de
	.db	0x05			; dec b
	.db	0x20, 0xF8		; jr nz, to the load
	.db	0xC9			; ret

	.org	SOURCE
	.db	0x89, 0x67, 0x45, 0x23, 0x91, 0x78, 0x56, 0x34
