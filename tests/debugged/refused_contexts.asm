# debug: why the directory refuses an entry or a context
ram 0x80000000 0x10000
