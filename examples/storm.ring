# Storms. Clients on several threads send commands to one conductor. The printed numbers do not depend on the order
# of the threads.
# Run it with: ./ring-run --commands 256 examples/storm.ring

# One client sends one command. Its counter is allocated, and its value stays 0.
storm 1 1

# Four clients send 1,000 commands each through a ring of 256 bytes. Each client
# sets its counter to 2, 3, .. 1000, so the last values add up to 4,000.
storm 4 1000
storm 64 10

# A storm with too many clients, or with no command for a client, is refused before anything is done.
storm 65 1
storm 1 0
end
