# debug: ddtp takes the modes 0 to 4, and another changes nothing
ram 0x80000000 0x80000
