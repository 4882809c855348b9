"""Faults put before the C library, each of which the random calls or the threads that meet have to notice."""
import os
import tempfile

from .calls import OPTIONS, SOURCES
from .shared import Finding, compiled, run_program
from .threads import MEETINGS

# What is done, and the call it is done in: sabotage.c has it under SABOTAGE_ and the name.
# The random calls have to notice these:
IN_CALLS = {
    "LOST": "felter_write",           # a message is not written
    "DOUBLED": "felter_write",        # one is written twice
    "FULL": "felter_write",           # one that has room is refused
    "TORN": "felter_read",            # a message is shown with another last byte
    "BEYOND": "felter_read",          # a byte after the message is written
    "UNABORTED": "felter_abort",      # an aborted claim is shown
    "SHORT_PUT": "felter_put",        # the last byte is not put
    "LEAK": "felter_free",            # a handle is emptied, and what it owned is kept
    "UNSAID_LAP": "felter_receive",   # a receiver does not learn that it missed something
    "STALE": "felter_reader_value",   # a reader gets the value that it loaded before
    "OTHER_REPLY": "felter_poll",     # a client takes the reply to another command for its own
    "TAKING_PEEK": "felter_peek",     # a message that is looked at does not stay
    "UNTAKEN": "felter_take",         # one that is taken stays
    "UNRECOVERED": "felter_recover",  # the first message is not recovered
    "TORN_BACK": "felter_recover",    # it comes with another first byte
    "UNRAISED": "felter_counter_propose_max",         # a value that was raised is said to be as it was
    "SET_ANYWAY": "felter_counter_compare_and_set",   # a value that was not expected is replaced all the same
    "ADDED_TWICE": "felter_adder_add",                # an amount is added twice
    "SHORT_LAP": "felter_receiver_lap",               # a receiver is said to have been further on when it was lapped
    "EARLY_DEADLINE": "felter_conductor_deadline",    # a freed id is said to rest for less
}
# The threads of meetings.c have to notice these, while other threads go on:
IN_MEETINGS = {
    "OLD_COPY": "felter_receive",          # a receiver gets the copy that it got before
    "UNSAID_LAP": "felter_receive",        # a receiver does not learn that it missed something
    "TORN_COPY": "felter_load_body",       # a copy has another first byte
    "OVERWRITTEN": "felter_validate",      # a record that is overwritten is said to be whole
    "OLD_VALUE": "felter_reader_value",    # a reader gets an older value of a counter after a newer one
    "UNSET": "felter_counter_set",         # a value is not written
    "UNADDED": "felter_adder_add",         # an amount is not added
    "OLD_SUM": "felter_adder_value",       # an adder gets an older sum after a newer one
    "SAME_ID": "felter_next_id",           # a correlation id is drawn twice
    "OLD_HEAD": "felter_positions",        # a head is older than one loaded before
    "OLD_BEAT": "felter_heartbeat",        # and so is a heartbeat
    "HELD_BACK": "felter_read",            # a message that is there is said not to be there yet
    "OTHER_REPLY": "felter_poll",          # a client takes the reply to another command for its own
}
SECONDS = 4


def run(_seconds, seed):
    with tempfile.TemporaryDirectory() as folder:
        for sources, options, sabotages in (SOURCES, OPTIONS, IN_CALLS), (MEETINGS, ("-O1",), IN_MEETINGS):
            attack = sources[0][:-2]
            sound = compiled(os.path.join(folder, attack + ".o"), sources, "-O1", "-Wno-misleading-indentation", "-r")
            for name, call in sabotages.items():
                program = compiled(os.path.join(folder, name), (sound, "sabotage.c"), *options, f"-DSABOTAGE_{name}",
                                   f"-Wl,--wrap={call}")
                if run_program([program, str(SECONDS), str(seed)]).returncode == 0:
                    raise Finding(f"{name} in {call} was not noticed by {attack}")
    return f"{len(IN_CALLS) + len(IN_MEETINGS)} faults, all noticed"
