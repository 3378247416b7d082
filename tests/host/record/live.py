"""Part of tests/host/record/live.sh: what one process reads comes to the report through threads, shared memory and sockets."""

import mmap
import os
import socket
import threading


def read(name):
    with open(name, "rb") as file:
        return file.read()


def write(data, flags):
    report = os.open("report", os.O_WRONLY | os.O_CREAT | flags)
    os.write(report, data)
    os.close(report)


def child(work):
    pid = os.fork()
    if pid == 0:
        work()
        os._exit(0)
    os.waitpid(pid, 0)


def by_thread():
    data = []
    thread = threading.Thread(target=lambda: data.append(read("a.pos")))
    thread.start()
    thread.join()
    write(data[0], os.O_TRUNC)


def by_memory():
    memory = mmap.mmap(-1, 4096)

    def put():
        memory[:9] = read("a.pos")[:9]

    child(put)
    write(memory[:9], os.O_APPEND)


def by_socket():
    here, there = socket.socketpair()
    child(lambda: there.send(read("a.pos")))
    write(here.recv(100), os.O_TRUNC)


for way in (by_thread, by_memory, by_socket):
    child(way)
