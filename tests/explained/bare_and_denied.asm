# explain: accesses that ddtp or a context alone leads, and those that are denied before the caches
ram 0x80000000 0x10000
at 0x80001000
context
