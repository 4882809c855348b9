"""Names of felter.h that an attack has to call and does not: none is printed if there is none.

Random calls (calls*.c) have to make each call. The programs of `threads` have to make each call that can meet another
one on another thread.
"""
import os
import re
import sys

ATTACKS = os.path.dirname(os.path.realpath(__file__))
TOP = os.path.dirname(os.path.dirname(ATTACKS))

DECLARED = r"^(?:int32_t |void |static inline int32_t |static inline const char \*)(felter_\w+)\("
RANDOM, THREADS = ("calls",), ("threads", "lanes", "meetings")

# The calls that cannot meet another one on another thread, by the reason.
ALONE = {
    "what it writes never changes": """
        felter_text felter_version felter_capacity felter_ring_memory felter_board_memory felter_counters_memory""",
    "only calls of the same handle change what it writes": "felter_shares felter_adder_shares",
    "no thread may work on the memory that it reads": "felter_recover felter_recover_words felter_finding",
    # (the forms without a number meet others, since all draw from one count)
    "what it makes is in no other handle yet, and the caller gives the number": """
        felter_many_to_one_new_numbered felter_many_to_one_new_at_numbered felter_one_to_one_new_numbered
        felter_one_to_one_new_at_numbered felter_board_new_numbered felter_board_new_at_numbered
        felter_counters_new_numbered felter_adder_new_numbered felter_conductor_new_numbered
        felter_many_to_one_new_in_numbered felter_one_to_one_new_in_numbered felter_board_new_in_numbered
        felter_counters_new_in_numbered""",
    "other threads only load values of counters, and this is in the records, which the owner's thread alone uses": """
        felter_counters_count felter_counters_available felter_counter_find felter_counter_type_id
        felter_counter_registration
        felter_counter_owner felter_counter_state felter_counter_deadline felter_counter_label felter_counter_key""",
    "the same, of a conductor's counters": """
        felter_conductor_count felter_conductor_find felter_conductor_type_id felter_conductor_registration
        felter_conductor_owner felter_conductor_state felter_conductor_deadline felter_conductor_label
        felter_conductor_key""",
}


def declared():
    """The functions that the header declares, the inline ones among them."""
    with open(os.path.join(TOP, "c", "felter.h"), encoding="utf-8") as file:
        names = re.findall(DECLARED, file.read(), re.M)
    if len(names) < 90:
        raise SystemExit("the header declares only %d functions: is it read as it should be?" % len(names))
    return names


def called(beginnings):
    """The functions that are called in the files whose names begin so."""
    names = set()
    for name in sorted(os.listdir(ATTACKS)):
        if name.startswith(beginnings) and name.endswith(".c"):
            with open(os.path.join(ATTACKS, name), encoding="utf-8") as file:
                names.update(re.findall(r"\b(felter_\w+)\(", file.read()))
    return names


def uncalled():
    """The functions that no random call is of."""
    random = called(RANDOM)
    return [name for name in declared() if name not in random]


def unmet():
    """The functions that can meet another call, and that no thread attack calls; and what is wrong in the table."""
    names, threads = declared(), called(THREADS)
    alone = [name for its in ALONE.values() for name in its.split()]
    wrong = [name for name in alone if name in threads or name not in names or alone.count(name) > 1]
    return [name for name in names if name not in threads and name not in alone] + wrong


if __name__ == "__main__":
    lines = [name + ": no random call" for name in uncalled()]
    lines += [name + ": no thread attack calls it, or the table of calls that cannot meet is wrong" for name in unmet()]
    print("\n".join(lines), end="\n" if lines else "")
    sys.exit(1 if lines else 0)
