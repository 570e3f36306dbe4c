| alters.s - a pattern that calls the maker's stitch code in ROM twice, and then would alter it: knit to purl, at $F00003.
| ./run tryer 1000 f0000a - - - patterns/maker.bin < patterns/alters.bin: 11 steps (1, twice 4, 1, and the MOVE that fails), and vector 2.
| Source: [ours], put into bytes by hand.  tools/patterns patterns/alters.s > patterns/alters.bin
|
| address      bytes             instruction               what it does
000000         0000 1000         SSP                       where an exception puts its frame: below the window, which reaches to the ROM's end
000004         0000 1000         PC                        the start
000008-0000BF  0000 0400         vectors 2 to 47           all have one handler
000400         4E72 2700         STOP #$2700               the handler: a try ends before it
001000         41F8 1100         LEA $1100.W,A0            the row
001004         4EB9 00F0 0000    JSR $F00000.L             a pair; the return address goes to $FFFC
00100A         4EB9 00F0 0000    JSR $F00000.L             and another
001010         7050              MOVEQ #$50,D0             purl
001012         13C0 00F0 0003    MOVE.B D0,$F00003.L       in the maker's code: a bus error
