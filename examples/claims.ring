# Claims. Room for a message is claimed first, and the body is put into the claim later. No read goes past an open
# claim.
# Run it with: ./ring-run examples/claims.ring

# Two claims are open at once, and the second one is committed first.
claim 1 16
claim 2 8
put 1 0 48656c6c6f
put 2 0 7365636f6e64
commit 2

# The first claim is at the head and is open, so a read shows nothing. The tail is beyond the head, so the ring is not
# empty. The reader is blocked.
read 9
positions
put 1 5 20776f726c64
commit 1
read 9
positions

# The reader skips an aborted claim, and never shows its message.
claim 3 4
abort 3
write 3 01
read 9

# The reader returns a letter for each message. After n the read takes the message and goes on. After b the read
# takes the message and stops. After a the read stops, and the message stays in the ring.
write 1 61
write 1 62
write 1 63
control 9 nb
control 9 a
control 9 -

# The tail is 8 bytes before the end of the buffer. The next record would cross that end, so padding comes first. A read
# stops at the end of the buffer, and the next read goes on after it.
claim 1 4
put 4 2 616263
put 4 1 616263
read 9
commit 4
read 9

# The trailer, which follows the buffer, has the next correlation id and the reader's heartbeat. No correlation id is
# given twice.
correlation
correlation
heartbeat
beat 1700000000000
heartbeat

# A claim that is open at the end is aborted.
claim 1 2
end
