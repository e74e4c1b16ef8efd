# debug: cmd is answered done also when it stops the queue, idle while it is stopped, and cqcsr and cqh tell why
ram 0x80000000 0x80000
