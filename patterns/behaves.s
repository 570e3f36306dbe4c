| behaves.s - a pattern that behaves: it knits a row of eight stitches, a pair at a time, and says by TRAP #0 that it is done.
| ./run tryer 1000 2000 < patterns/behaves.bin: 23 steps (2, four times 5, and the TRAP), and vector 32.
| Source: [ours], put into bytes by hand.  tools/patterns patterns/behaves.s > patterns/behaves.bin
|
| address      bytes             instruction               what it does
000000         0000 8000         SSP                       where an exception puts its frame: outside the window
000004         0000 1000         PC                        the start
000008-0000BF  0000 0400         vectors 2 to 47           all have one handler
000400         4E72 2700         STOP #$2700               the handler: a try ends before it
001000         41F8 1100         LEA $1100.W,A0            the row
001004         7003              MOVEQ #3,D0               four pairs
001006         6106              BSR.S $100E               a pair; the return address goes to $1FFC
001008         51C8 FFFC         DBF D0,$1006              the next pair, until D0 is $FFFF
00100C         4E40              TRAP #0                   done
00100E         10FC 004B         MOVE.B #$4B,(A0)+         knit
001012         10FC 0050         MOVE.B #$50,(A0)+         purl
001016         4E75              RTS
