| maker.s - the maker's stitch code, a ROM for the pattern alters: a subroutine that knits a pair at A0.
| ./run tryer 1000 f0000a - - - patterns/maker.bin < patterns/alters.bin
| Source: [ours], put into bytes by hand.  tools/patterns patterns/maker.s > patterns/maker.bin
|
| address      bytes             instruction               what it does
F00000         10FC 004B         MOVE.B #$4B,(A0)+         knit
F00004         10FC 0050         MOVE.B #$50,(A0)+         purl
F00008         4E75              RTS
