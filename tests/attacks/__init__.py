"""The attacks of tests/attack, one in each file: `run(seconds, seed)` says how much it did, or raises."""
