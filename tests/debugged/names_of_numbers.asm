# debug: a name stands for its number in the lines after it
ram 0x80000000 0x1000
