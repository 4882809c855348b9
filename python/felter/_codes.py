"""The codes of refusals, and what they mean in words."""

# Written by c/bindings from felter.h. To change this file, change felter.h and run c/bindings.
import enum


class Number(enum.IntEnum):
    """The numbers of refusals, as in felter.h."""

    BAD_CAPACITY = 1
    BAD_START = 2
    OUT_OF_MEMORY = 3
    BAD_TYPE = 4
    TOO_LONG = 5
    POSITION_LIMIT = 6
    INSUFFICIENT_CAPACITY = 7
    CONTENDED = 8
    PUT_RANGE = 9
    CLAIMS_OPEN = 10
    PRODUCERS_OUT = 11
    NO_SHARES = 12
    LAPPED = 13
    RECEIVERS_OUT = 14
    BAD_COUNT = 15
    KEY_TOO_LONG = 16
    LABEL_TOO_LONG = 17
    LABEL_NOT_ASCII = 18
    NO_FREE_COUNTER = 19
    BAD_ID = 20
    NOT_ALLOCATED = 21
    BAD_OWNER = 28
    NO_HANDLE = 100
    WRONG_HANDLE = 101
    HANDLE_IN_USE = 102
    NO_CLAIM = 104
    NO_MESSAGE = 105
    SHORT_BUFFER = 106
    BAD_MOMENT = 107
    OTHER_RING = 108
    OTHER_REPLY = 109
    IN_USE = 110
    NULL_POINTER = 111
    BAD_MEMORY = 112
    NO_IMAGE = 113
    UNALIGNED_POSITION = 114
    TAIL_BEFORE_HEAD = 115
    TAIL_TOO_FAR = 116
    BAD_HEADER_LENGTH = 117
    BAD_HEADER_TYPE = 118


TEXTS = {
    1: "the capacity is not a power of two from 128 (of a board 256) to 2^24",
    2: "the start is not a multiple of the capacity, or is above 2^62",
    3: "out of memory",
    4: "the type id is below 1",
    5: "the message has more than an eighth of the capacity, or the command 520",
    6: "the record would end above 2^62",
    7: "the ring is full",
    8: "another producer was faster",
    9: "the bytes are not inside the claim",
    10: "a claim of the producer is open",
    11: "a producer or a client is still in a handle",
    12: "one share is left, and is needed",
    13: "the transmitter overtook the receiver",
    14: "a receiver is still in a handle",
    15: "the number of counters is 0 or above 4096",
    16: "the key has more than 112 bytes",
    17: "the label has more than 380 bytes",
    18: "the label has a byte of 128 or more",
    19: "every counter is in use, or was freed too short a time ago",
    20: "the id is not below the number of counters",
    21: "no such counter is in use",
    28: "the owner is 0, which means none",
    100: "the handle is empty",
    101: "the handle is of another kind",
    102: "the handle that was to be filled is not empty",
    104: "no claim of this number is open",
    105: "no message is there yet",
    106: "the message is longer than the buffer, and stays",
    107: "the moment is above 2^62",
    108: "the two handles are of two rings, boards, conductors, sets of counters or shared counters",
    109: "the message is the reply to another command, or no reply",
    110: "another handle holds what was to be closed",
    111: "a pointer is NULL",
    112: "the memory is too short, does not begin at a multiple of 64 (to recover: of 8), or is in use",
    113: "the memory is not the image of a ring",
    114: "the head or the tail is not a multiple of 8",
    115: "the tail is before the head",
    116: "the tail is more than the capacity after the head",
    117: "a header has a length that no record has there",
    118: "a header has a type id that no record has",
}
