"""A thread writes 1,000 messages, and this one reads them, by the shared library alone: headless.py LIBRARY

What it knows of the library is what a program in C#, Lua or Go would write by hand: names, and that a handle is one
pointer. Nothing of felter.h is read.
"""

import ctypes
import struct
import sys
import threading

library = ctypes.CDLL(sys.argv[1])
library.felter_text.restype = ctypes.c_char_p
FULL, NO_MESSAGE, NO_HANDLE, NULL_POINTER = 7, 105, 100, 111


class Handle(ctypes.Structure):
    _fields_ = [("at", ctypes.c_void_p)]


def must(code):
    if code:
        raise SystemExit(library.felter_text(code).decode())


producer, consumer, transmitter, counters, conductor = (Handle() for _ in range(5))
by = ctypes.byref
# (each call that makes something draws a number for it)
must(library.felter_many_to_one_new(1024, by(producer), by(consumer)))
must(library.felter_board_new(1024, by(transmitter)))
must(library.felter_counters_new(4, 0, by(counters)))
must(library.felter_conductor_new(1024, 1024, 4, 0, by(conductor)))
# A pointer that is NULL has a code, and each code a text.
assert library.felter_one_to_one_new(1024, None, by(Handle())) == NO_HANDLE
assert library.felter_board_new_at(1000, ctypes.c_uint64(0), by(Handle())) == 1
assert library.felter_text(NULL_POINTER) == b"a pointer is NULL"
# Two rings have two numbers: their handles do not fit together.
one, two = Handle(), Handle()
must(library.felter_many_to_one_new_at(1024, ctypes.c_uint64(0), by(one), by(two)))
assert library.felter_close(by(two), by(producer)) == 108
# What a consumer has before it, and a batch of writes.
found, head, written = ctypes.c_int32(), ctypes.c_uint64(), ctypes.c_uint32()
must(library.felter_standing(by(producer), by(consumer), by(found), by(head)))
assert (found.value, head.value) == (1, 0)
batch = struct.pack("=Qq8sQq8s", 3, 5, b"abc", 2, 6, b"de")
must(library.felter_write_batch(by(one), batch, ctypes.c_size_t(len(batch)), by(written)))
assert written.value == 2
# A ring in memory of the caller.
room = ctypes.create_string_buffer(4096)
memory = ctypes.c_void_p(ctypes.addressof(room) + -ctypes.addressof(room) % 64)
needed, in_one, in_two = ctypes.c_size_t(), Handle(), Handle()
must(library.felter_ring_memory(1024, by(needed)))
assert needed.value == 2944
new_in = library.felter_many_to_one_new_in_numbered
ninth = ctypes.c_uint64(1 << 40)
assert new_in(ninth, None, needed, 1024, by(in_one), by(in_two)) == NULL_POINTER
assert new_in(ninth, memory, needed, 1, None, by(in_two)) == NO_HANDLE
assert new_in(ninth, memory, ctypes.c_size_t(9), 1024, by(in_one), by(in_two)) == 112
must(library.felter_many_to_one_new_in(memory, needed, 1024, by(in_one), by(in_two)))
must(library.felter_write(by(in_one), 1, b"there", ctypes.c_size_t(5)))
at = memory.value - ctypes.addressof(room)
assert room.raw[at : at + 8] == b"FELTERIM" and room.raw[at + 1928 : at + 1933] == b"there"
# The messages of that ring, from its memory.
opened, count, used = ctypes.c_uint64(), ctypes.c_uint32(), ctypes.c_size_t()
laid, long = ctypes.create_string_buffer(4096), ctypes.c_size_t(4096)
must(library.felter_recover(memory, needed, by(opened), by(count), by(used), laid, long))
assert (opened.value, count.value, used.value) == (0, 1, 24)
assert laid.raw[:24] == struct.pack("=Qq8s", 5, 1, b"there")
assert library.felter_recover(memory, needed, None, by(count), by(used), laid, long) == NULL_POINTER
assert library.felter_recover(None, needed, by(opened), by(count), by(used), laid, long) == NULL_POINTER
assert library.felter_finding(memory, ctypes.c_size_t(127), by(used), laid, long) == 0
assert laid.value == b"the memory is not the image of a ring"


def write_all():
    for i in range(1000):
        body = b"%d" % i
        while True:
            code = library.felter_write(by(producer), 1, body, ctypes.c_size_t(len(body)))
            if code != FULL:
                break
        must(code)


thread = threading.Thread(target=write_all)
thread.start()
type_id, length, room, number = ctypes.c_int32(), ctypes.c_size_t(), ctypes.create_string_buffer(128), 0
while number < 1000:
    code = library.felter_read(by(consumer), by(type_id), by(length), room, ctypes.c_size_t(128))
    if code == NO_MESSAGE:
        continue
    must(code)
    assert room[: length.value] == b"%d" % number
    number += 1
thread.join()
for it in producer, consumer, transmitter, counters, conductor, one, two, in_one, in_two:
    library.felter_free(by(it))
    assert it.at is None
print(number, "messages, in order")
