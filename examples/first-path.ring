# The first path. Messages go into a ring of 128 bytes and come out in order.
# Run it with: ./ring-run examples/first-path.ring

# A record has a header of 8 bytes and the message, and is rounded up to a multiple of 8 bytes. Four records of 24 bytes
# and one record of 16 bytes end at byte 112.
write 1 000102030405060708090a0b0c0d0e0f
write 1 101112131415161718191a1b1c1d1e1f
write 1 202122232425262728292a2b2c2d2e2f
write 1 303132333435363738393a3b3c3d3e3f
write 2 4041424344454647

# 16 bytes are left, and a record of 24 bytes does not fit.
write 1 505152535455565758595a5b5c5d5e5f

# The reader takes two messages, and then the rest.
read 2
read 9

# Now there is room. The record would cross the end of the buffer. So 16 bytes of padding come first, and the record
# begins at the start of the buffer.
write 1 505152535455565758595a5b5c5d5e5f

# A read does not cross the end of the buffer. The first read skips the padding, and the second one shows the message.
read 9
read 9

# A call that is refused leaves the ring as it was.
write 0 00
write 3 000102030405060708090a0b0c0d0e0f10

# A message may be empty. This one is still in the ring at the end.
write 2147483647 -
end
