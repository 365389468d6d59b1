; What stands before the compiled program: a stack, then main, for ever.

	.module	crt0
	.globl	_main

	.area	_HEADER (ABS)
	.org	0x0100
	ld	sp, #0xE000
again:
	call	_main
	jr	again

	.area	_CODE
	.area	_HOME
	.area	_INITIALIZER
	.area	_GSINIT
	.area	_GSFINAL
	.area	_DATA
	.area	_INITIALIZED
	.area	_BSS
