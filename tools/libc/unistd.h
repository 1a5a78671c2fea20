/* What the hosts in C use of unistd: see stdio.h. */
unsigned alarm(unsigned);
