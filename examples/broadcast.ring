# A broadcast buffer of 256 bytes. The transmitter never waits. Receivers learn if they missed something.
# Run it with: ./ring-run examples/broadcast.ring

# A receiver begins with the latest record. Here no record was transmitted yet.
subscribe
receive 1

# Every receiver gets every message. The second receiver begins with this message.
transmit 1 48656c6c6f
subscribe
receive 1
receive 2
leave 2

# Six records of 40 bytes fill the bytes from 16 to 256. So far nothing is overwritten.
transmit 1 000102030405060708090a0b0c0d0e0f000102030405060708090a0b0c0d0e0f
transmit 1 101112131415161718191a1b1c1d1e1f101112131415161718191a1b1c1d1e1f
transmit 1 202122232425262728292a2b2c2d2e2f202122232425262728292a2b2c2d2e2f
transmit 1 303132333435363738393a3b3c3d3e3f303132333435363738393a3b3c3d3e3f
transmit 1 404142434445464748494a4b4c4d4e4f404142434445464748494a4b4c4d4e4f
transmit 1 505152535455565758595a5b5c5d5e5f505152535455565758595a5b5c5d5e5f
receive 1

# The receiver's next record is at byte 56. This record stays whole until the transmitter passes byte 56 + 256. The next
# two records end at 288.
transmit 2 6061626364656667
transmit 2 7071727374757677
receive 1

# Now the receiver's next record is at byte 96. The next two records end at 368, which is beyond 96 + 256. So the
# receiver learns that it was lapped. It goes on with the latest record.
transmit 3 808182838485868788898a8b8c8d8e8f808182838485868788898a8b8c8d8e8f
transmit 4 909192939495969798999a9b9c9d9e9f909192939495969798999a9b9c9d9e9f
receive 1
receive 1
receive 1

# A call that is refused changes nothing.
transmit 0 00
transmit 3 000102030405060708090a0b0c0d0e0f000102030405060708090a0b0c0d0e0f10
leave 1
subscribe
receive 3
end
