"""What a copy of a ring's memory holds, by docs/FORMATS.md."""
import struct

TRAILER = 768
TAIL, HEAD = 128, 384


def capacity_of(size):
    """The capacity of a ring with this many bytes in all, or None."""
    capacity = size - TRAILER
    return capacity if 128 <= capacity <= 1 << 24 and capacity & (capacity - 1) == 0 else None


def header_finding(length, type_id, index, left, capacity):
    """Why a header is none, as the names of what may be said; `left` bytes are between its place and the tail."""
    found = set()
    size = abs(length)
    span = (size + 7) // 8 * 8
    if size < 8 or size > 8 + capacity // 8 or index + span > capacity or span > left:
        found.add(f"BadLength at {index}:")
    if type_id < 1 and not (type_id == -1 and length > 0):
        found.add(f"BadType at {index}:")
    return found


def list_ring(data):
    """The records from the head to the tail, and the beginnings of what a finding may say (none if there is none).

    A record is (place, index, state, type id, length)."""
    capacity = capacity_of(len(data))
    if capacity is None:
        return [], {f"BadSize: no ring has {len(data) // 8} words"}
    head, tail = (struct.unpack_from("<Q", data, capacity + field)[0] for field in (HEAD, TAIL))
    said = f": head {head}, tail {tail}"
    if head % 8 or tail % 8:
        return [], {"UnalignedPosition" + said}
    if tail < head:
        return [], {"TailBeforeHead" + said}
    if tail - head > capacity:
        return [], {"TailTooFar" + said}
    records, place = [], head
    while place < tail:
        index = place % capacity
        length, type_id = struct.unpack_from("<ii", data, index)
        if length == 0 and type_id == 0:
            records.append((place, index, "not stored yet"))
            break
        finding = header_finding(length, type_id, index, tail - place, capacity)
        if finding:
            return records, finding
        span = (abs(length) + 7) // 8 * 8
        state = "open" if length < 0 else "committed"
        if type_id == -1:
            # (padding has exactly the bytes to the end of the buffer)
            state = "aborted or padding" if index + length == capacity else "aborted"
        records.append((place, index, state, type_id, abs(length)))
        place += span
    return records, set()


BOARD_TRAILER = 128


def words_at(data, at, count):
    return struct.unpack_from(f"<{count}Q", data, at)


def board_findings(data):
    """The capacity of a broadcast buffer, its intent, tail and latest, and what may be said of these."""
    capacity = len(data) - BOARD_TRAILER
    if not 256 <= capacity <= 1 << 24 or capacity & (capacity - 1):
        return None, {f"BadSize: no board has {len(data) // 8} words"}
    intent, tail, latest = words_at(data, capacity, 3)
    found = set()
    if intent % 8 or tail % 8 or latest % 8:
        found.add(f"UnalignedPosition: intent {intent}, tail {tail}, latest {latest}")
    if tail < latest:
        found.add(f"TailBeforeLatest: tail {tail}, latest {latest}")
    if intent < tail:
        found.add(f"IntentBeforeTail: intent {intent}, tail {tail}")
    if tail > latest - latest % capacity + capacity:
        found.add(f"TailTooFar: tail {tail}, latest {latest}")
    if intent > latest + capacity:
        found.add(f"IntentTooFar: intent {intent}, latest {latest}")
    return (capacity, intent, tail, latest), found


def wrong_board_record(data, numbers, record):
    """Why a record that was listed is not what memory holds, or None."""
    capacity, intent = numbers[:2]
    place, index, length = record["place"], record["index"], record["length"]
    of, type_id = struct.unpack_from("<ii", data, index)
    state = "valid" if intent < place + capacity else "lapped"
    if type_id == -1:
        state = "padding" if state == "valid" else "lapped padding"
    if (index, of, type_id, state) != (place % capacity, length, record["type"], record["state"]):
        return f"{record}, and memory has {(of, type_id, state)}"
    return None


def list_counters(metadata, values):
    """Of each id its state, None for one that has none; and what may be said."""
    count = len(metadata) // 512
    if len(metadata) % 512 or len(values) % 128 or count != len(values) // 128 or count == 0:
        said = f"BadSize: no counters have {len(metadata) // 8} words of metadata and {len(values) // 8} of values"
        return [], {said}
    states, findings = [], set()
    for number in range(count):
        state, = struct.unpack_from("<i", metadata, 512 * number)
        length, = struct.unpack_from("<i", metadata, 512 * number + 128)
        states.append({0: "unused", 1: "in use", -1: "freed"}.get(state))
        if states[-1] is None:
            findings.add(f"BadState of {number}: state {state}")
        elif state and not 0 <= length <= 380:
            findings.add(f"BadLabelLength of {number}: length {length}")
    return states, findings


def wrong_counter(metadata, values, states, counter):
    """Why a counter that was listed is not what memory holds, or None."""
    number = counter["id"]
    type_id, = struct.unpack_from("<i", metadata, 512 * number + 4)
    deadline, = struct.unpack_from("<Q", metadata, 512 * number + 8)
    value, = struct.unpack_from("<q", values, 128 * number)
    registration, owner = words_at(values, 128 * number + 8, 2)
    shown = [counter[key] for key in ("state", "type", "value", "registration", "owner")]
    if shown != [states[number], type_id, value, registration, owner]:
        return f"{counter}, and memory has {(states[number], type_id, value, registration, owner)}"
    if counter["state"] == "freed" and counter["deadline"] not in (deadline, None):
        return f"{counter}, and memory has the deadline {deadline}"
    return None
