; A machine that waits: every request is enabled, none comes.

	.area	_IMAGE (ABS)

	.org	0x0100
	ld	sp, #0xE000
	ld	a, #0x1F
	ldh	(0xFF), a
	ei
wait:
	halt
	jr	wait
