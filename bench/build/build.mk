# A build that the bench watches: two files compiled and linked.
prog: one.o main.o
	cc -o prog one.o main.o
%.o: %.c
	cc -c -o $@ $<
