"""Cases for the calls on files, drawers and trickles, with what the models answer, and the case stream of
docs/CASES.md."""
