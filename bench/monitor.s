; What stands beside an image while qemu-hppa runs it: the start, which gives registers their first values, and what the
; library's three functions do, by system calls of Linux. `outside.py` writes the image's entry and stack pointer into
; `parameters`, and puts the three pairs of words of `calls` in the place of these functions. Register 1 alone comes back
; changed of those that the functions leave as they are.
	.level	1.1
	.text
start:
	ldil	L'parameters,%r1
	ldo	R'parameters(%r1),%r1
	ldw	4(%r1),%r30
	ldw	0(%r1),%r1
	.irp	n,2,3,4,5,6,7,8,9,10,11,12,13,14,15,16,17,18,19,20,21,22,23,24,25,26,27,28,29,31
	ldi	0,%r\n
	.endr
	mtctl	%r0,%cr11
	bv	%r0(%r1)
	ldi	0,%r1

	.org	0x100
parameters:
	.word	0, 0
kept:
	.space	64
byte:
	.space	4

	.org	0x180
calls:
	ldil	L'ends,%r1
	be,n	R'ends(%sr4,%r1)
	ldil	L'gets,%r1
	be,n	R'gets(%sr4,%r1)
	ldil	L'puts,%r1
	be,n	R'puts(%sr4,%r1)

; The process ends with the low byte of register 26.
ends:
	extru	%r26,31,8,%r26
	ble	0x100(%sr2,%r0)
	ldi	1,%r20

; One byte is read from the standard input into register 28, or -1 at its end.
gets:
	ldil	L'kept,%r1
	ldo	R'kept(%r1),%r1
	stw	%r31,0(%r1)
	bl	keep,%r31
	nop
	ldi	0,%r26
	ldil	L'byte,%r25
	ldo	R'byte(%r25),%r25
	ldi	1,%r24
	ble	0x100(%sr2,%r0)
	ldi	3,%r20
	ldil	L'kept,%r1
	comib,<>	1,%r28,none
	ldo	R'kept(%r1),%r1
	b	back
	ldb	byte-kept(%r1),%r28
none:
	b	back
	ldi	-1,%r28

; The low byte of register 26 is written to the standard output, and stands in register 28.
puts:
	ldil	L'kept,%r1
	ldo	R'kept(%r1),%r1
	stw	%r31,0(%r1)
	bl	keep,%r31
	stb	%r26,byte-kept(%r1)
	ldi	1,%r26
	ldil	L'byte,%r25
	ldo	R'byte(%r25),%r25
	ldi	1,%r24
	ble	0x100(%sr2,%r0)
	ldi	4,%r20
	ldil	L'kept,%r1
	ldo	R'kept(%r1),%r1
	ldb	byte-kept(%r1),%r28

; Back behind the call of the library's function, with the registers of before.
back:
	ldw	4(%r1),%r2
	.irp	n,19,20,21,22,23,24,25,26,27,29
	ldw	4*(\n-17)(%r1),%r\n
	.endr
	bv	%r0(%r2)
	ldw	0(%r1),%r31

; The registers that a system call may change.
keep:
	stw	%r2,4(%r1)
	.irp	n,19,20,21,22,23,24,25,26,27,29
	stw	%r\n,4*(\n-17)(%r1)
	.endr
	bv,n	%r0(%r31)
	nop
