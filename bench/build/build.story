source one.c
source main.c
permit one.o: one.c
permit main.o: main.c
permit prog: one.c main.c
