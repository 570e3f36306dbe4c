| sunday.s - a pattern that sets the supervisor bit, the Sunday's: after four stitches it wants SR, and then the vectors.
| ./run tryer 1000 2000 < patterns/sunday.bin: 3 steps, and vector 8. What follows the third instruction is never reached.
| Source: [ours], put into bytes by hand.  tools/patterns patterns/sunday.s > patterns/sunday.bin
|
| address      bytes             instruction               what it does
000000         0000 8000         SSP                       where an exception puts its frame: outside the window
000004         0000 1000         PC                        the start
000008-0000BF  0000 0400         vectors 2 to 47           all have one handler
000400         4E72 2700         STOP #$2700               the handler: a try ends before it
001000         203C 4B50 4B50    MOVE.L #$4B504B50,D0      knit, purl, knit, purl
001006         21C0 1100         MOVE.L D0,$1100.W         the row
00100A         46FC 2700         MOVE #$2700,SR            supervisor state, all interrupts masked: a privilege violation
00100E         42B8 0008         CLR.L $8.W                the vector of the bus error
001012         60FE              BRA.S $1012
