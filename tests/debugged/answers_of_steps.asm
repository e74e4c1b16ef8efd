# debug: what steps are answered that are wrong or go outside memory, and what just fits
ram 0x80000000 0x80000
disk 5 1
