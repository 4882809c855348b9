"""A model of rings, broadcast buffers, counters, the conductor and scenarios, for tests to compare the programs with.

It is written from docs/FORMATS.md and docs/MODEL.md and not from the programs' sources, and has lists of messages
instead of words of memory."""
