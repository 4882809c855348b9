"""Images of killed rings, changed at random, from which felter_recover recovers. The expected results are computed by
tests/recovered.py from docs/FORMATS.md. The image is put at different addresses, and the buffers have different
lengths."""
import ctypes
import random
import re
import struct

from recovered import HEADER, changed, expected, image, killed, ring

OK, SHORT_BUFFER, BAD_MEMORY, NO_IMAGE = 0, 106, 112, 113
# The code of each finding, and its text with the numbers of the finding.
FINDINGS = {
    "UnalignedPosition": (114, "the head or the tail is not a multiple of 8: head {}, tail {}"),
    "TailBeforeHead": (115, "the tail is before the head: head {}, tail {}"),
    "TailTooFar": (116, "the tail is more than the capacity after the head: head {}, tail {}"),
    "BadLength": (117, "a header has a length that no record has there: byte {} of the buffer, length {}"),
    "BadType": (118, "a header has a type id that no record has: byte {} of the buffer, type id {}"),
}
FILLED = 0xA7


def wanted_of(data):
    """The code, the text of the finding, the messages and the number of open claims of an image."""
    found = expected(data)
    capacity, words_at, _, slots_at = struct.unpack("<4Q", data[24:56]) if found else (0, 0, 0, 0)
    # (the library accepts only the places at which it puts the words and the slots itself)
    is_placed = words_at == HEADER and slots_at == 896 + capacity
    if not found or not is_placed or (found[0] or "").startswith("BadSize"):
        return NO_IMAGE, "the memory is not the image of a ring", [], 0
    finding, messages, is_open = found
    if finding:
        code, text = FINDINGS[re.match(r"\w+", finding).group()]
        return code, text.format(*re.findall(r"-?\d+", finding)), [], 0
    return OK, "", messages, is_open


def records_of(messages):
    """The messages as a batch has them, with the bytes between them as they were."""
    batch = b""
    for _, type_id, body in messages:
        batch += struct.pack("<Qq", len(body), type_id) + body + bytes([FILLED] * (-len(body) % 8))
    return batch


def fault_of(library, data, rng):
    """What is wrong with what the library recovers from an image, or None."""
    code, text, messages, is_open = wanted_of(data)
    batch = records_of(messages)
    room = rng.choice((len(batch), len(batch), len(batch) + 8 * rng.randrange(9), rng.randrange(len(batch) + 1)))
    if code == OK and room < len(batch):
        code = SHORT_BUFFER
    past = rng.choice((0, 0, 8, 1))
    memory = ctypes.create_string_buffer(len(data) + 16)
    place = ctypes.addressof(memory) + -ctypes.addressof(memory) % 8 + past
    ctypes.memmove(place, data, len(data))
    if past % 8:
        code = BAD_MEMORY
        text = "the memory is too short, does not begin at a multiple of 64 (to recover: of 8), or is in use"
    buffer = ctypes.create_string_buffer(bytes([FILLED] * (room + 64)), room + 64)
    opened, count, used = ctypes.c_uint64(7), ctypes.c_uint32(7), ctypes.c_size_t(7)
    said = library.felter_recover(ctypes.c_void_p(place), ctypes.c_size_t(len(data)), ctypes.byref(opened),
                                  ctypes.byref(count), ctypes.byref(used), buffer, ctypes.c_size_t(room))
    is_told = code in (OK, SHORT_BUFFER)
    numbers = (is_open, len(messages), len(batch)) if is_told else (7, 7, 7)
    if said != code or (opened.value, count.value, used.value) != numbers:
        return f"code {said} with {opened.value}, {count.value}, {used.value} and not {code} with {numbers}"
    if buffer.raw != (batch if code == OK else b"").ljust(room + 64, bytes([FILLED])):
        return "the buffer has other bytes"
    length, finding = ctypes.c_size_t(7), ctypes.create_string_buffer(128)
    said = library.felter_finding(ctypes.c_void_p(place), ctypes.c_size_t(len(data)), ctypes.byref(length), finding,
                                  ctypes.c_size_t(128))
    if said != OK or finding.value.decode() != text or length.value != len(text):
        return f"code {said} and the text {finding.value.decode()!r}, and not {text!r}"
    return None


def faults(path, count, seed):
    """Recovers from this many images. Returns the faults, and how many images had each code."""
    library, found, codes = ctypes.CDLL(path), [], {}
    for k in range(count):
        rng = random.Random(f"{seed} damaged {k}")
        data = killed() if k == 0 else image(*ring(rng), rng.choice((1, 2)))
        if rng.random() < 0.8:
            data = changed(data, rng)
        fault = fault_of(library, data, rng)
        if fault:
            found.append(f"damaged {k}: {fault}")
        code = wanted_of(data)[0]
        codes[code] = codes.get(code, 0) + 1
    return found, codes
