| outside.s - a pattern that writes outside its window: its row has no end, and the fifth stitch would stand at $2000.
| ./run tryer 1000 2000 < patterns/outside.bin: 11 steps (2, four times 2, and the MOVE that fails), and vector 2.
| Source: [ours], put into bytes by hand.  tools/patterns patterns/outside.s > patterns/outside.bin
|
| address      bytes             instruction               what it does
000000         0000 8000         SSP                       where an exception puts its frame: outside the window
000004         0000 1000         PC                        the start
000008-0000BF  0000 0400         vectors 2 to 47           all have one handler
000400         4E72 2700         STOP #$2700               the handler: a try ends before it
001000         41F8 1FFC         LEA $1FFC.W,A0            four bytes below the end of the window
001004         704B              MOVEQ #$4B,D0             knit
001006         10C0              MOVE.B D0,(A0)+           a stitch
001008         60FC              BRA.S $1006               and the next
