EX p
AX p
