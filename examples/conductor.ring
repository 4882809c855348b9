# A conductor. Clients send commands into a ring. The conductor keeps counters, and replies to each command on a
# broadcast buffer.
# Run it with: ./ring-run examples/conductor.ring

# A listener gets the replies that are transmitted after the listener was made. A watcher reads the values of counters.
listen
watch

# Three commands wait in the ring. Each command has a correlation id, and its reply will have the same id. The label is
# `ab`. The counter will have the id 0.
allocate 5 - 6162
set 0 42
set 3 1
counters
peek 1 0

# The conductor takes two of the commands at 100 milliseconds, and then the third one. It refuses the third one with the
# number 21, since no counter has the id 3.
work 100 2
work 100 9
hear 1
hear 1
hear 1
hear 1
peek 1 0
counters

# An owner's counters are freed when the owner is closed. The reply says that two counters were freed.
own 9 6 - 78
own 9 6 - 79
close 9
work 110 9
hear 1
hear 1
hear 1
owner 0
owner 1

# A freed id can be allocated again 50 milliseconds after it was freed, and not before. The ids 1 and 2 can be allocated
# again from 160 milliseconds on. So this counter gets the id 3.
allocate 7 - 7a
work 159 9
allocate 7 - 7b
work 160 9
hear 1
hear 1
counters

# Bytes that are not a command get a reply too, and change nothing. The number 22 means that the bytes are malformed,
# and the number 23 means that no command has this type id.
send 1 0700000000000000
send 99 0800000000000000
work 200 9
hear 1
hear 1
unwatch 1

# A command that is still in the ring at the end is counted as left.
free 0
end
