| loop.s - five instructions that count and write a word, for ever, all within the first 1,024 bytes.
| Means: nothing; `growth` beside it runs it in memory of any length.
| Source: [ours].  m68k-linux-gnu-as -m68000 -o loop.o loop.s; m68k-linux-gnu-objcopy -O binary loop.o loop.bin
	.org 0
	.long 0x00000300, 0x00000008	| SSP, which nothing uses, and PC
start:	lea 0x300.w,%a0
loop:	addq.w #1,%d1
	addq.w #2,%d0
	andi.w #0xFE,%d0
	move.w %d1,(%a0,%d0.w)	| to $300 .. $3FE
	bra.s loop
