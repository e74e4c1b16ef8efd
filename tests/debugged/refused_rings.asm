# debug: dev step is answered done also when the device refuses what it read, and idle from then on
ram 0x80000000 0x80000
disk 5 1
