"""Conductors, which own counters and change them as their clients command."""

# (the calls of the library return what the library wrote, which has no type)
# mypy: no-warn-return-any

import contextlib
import enum
import time
import typing

from felter._library import call
from felter._owner import Owner, numbers
from felter.boards import Receiver
from felter.counters import Reader
from felter.errors import Contended, Disconnected, Error, Full, Lapped, Number
from felter.message import Buffer
from felter.waiting import wait_for

# An id that no counter has, and the number of times that a lapped client looks for its reply before it sends another
# command.
NO_COUNTER = 2**32 - 1
LOOKS = 16


class WorkStop(enum.IntEnum):
    """The reasons why a call of `Conductor.work` stops, with the numbers of felter.h."""

    # The limit was reached.
    LIMIT = 0
    # The end of the ring's buffer was reached. The next call goes on after it.
    BLOCK = 1
    # No further command was there.
    UNPUBLISHED = 2
    # A reply might end above 2^62 on the board. The command stays in the ring, and is not applied.
    BOARD_END = 3


class Work(typing.NamedTuple):
    """The number of commands that a call of `Conductor.work` took (possibly 0), and the reason why the call stopped."""

    messages: int
    stopped: WorkStop


class Finished(typing.NamedTuple):
    """The number of commands that a conductor received in all, and the number of commands that were still in the ring.
    The commands that were still in the ring get no reply."""

    received: int
    left: int


class ReplyKind(enum.IntEnum):
    """The kinds of replies, which are the type ids of their messages on the board."""

    # A counter was allocated. The number is its id.
    ALLOCATED = 101
    # The counter was freed or set. The number is 0.
    DONE = 102
    # Nothing was done. The number says why (Number).
    REFUSED = 103
    # The owner's counters were freed. The number says how many counters they were.
    CLOSED = 104


class Reply(typing.NamedTuple):
    """The reply to a command."""

    kind: ReplyKind
    number: int


class Outcome(enum.Enum):
    """The states of a command whose reply did not come."""

    PENDING = "no reply came in time, and the command may still be applied"
    TAKEN = "the command was applied or refused, and which of them is lost: replies were overtaken"
    UNKNOWN = "no reply came in time, and replies were overtaken"


class Unanswered(Exception):
    """A request ended without its reply. `outcome` says what is known of the command, and `correlation` is the id of
    the command."""

    def __init__(self, outcome: Outcome, correlation: int) -> None:
        super().__init__("command %d: %s" % (correlation, outcome.value))
        self.outcome = outcome
        self.correlation = correlation

    def __reduce__(self) -> typing.Tuple[typing.Any, ...]:
        return type(self), (self.outcome, self.correlation)


class Conductor(Owner):
    """Owns counters with the ids below `counters`. A freed id is not allocated again for `reuse_ms` milliseconds. The
    conductor takes the commands of its clients from a ring of `capacity` bytes. It transmits one reply to each command
    on a board of `replies` bytes.

    If a client or a receiver is freed, its shares are lost, and the conductor can finish without it."""

    def __init__(self, capacity: int, replies: int, counters: int, reuse_ms: int = 0) -> None:
        super().__init__(next(numbers))
        call("felter_conductor_new_numbered", self._number, capacity, replies, counters, reuse_ms, self)

    def client(self) -> "Client":
        """Makes a client, which starts with the reply that was transmitted last. The ring and the board have 65,536
        shares each, and the client gets one share of each."""
        client = Client(self._number, self._ends, writes=False)
        self._do("felter_conductor_client", client)
        return client

    def subscribe(self) -> Receiver:
        """Makes a receiver, which receives every reply as a message of the board. The receiver starts with the reply
        that was transmitted last, and gets one of the board's shares."""
        receiver = Receiver(self._number, self._ends, writes=False)
        self._do("felter_conductor_subscribe", receiver)
        return receiver

    def reader(self) -> Reader:
        """Makes a reader of the counters' values, for another thread. The reader gets one of the counters' 65,536
        shares. If the reader is freed, this share is lost, and the conductor can finish without the reader."""
        reader = Reader(self._number)
        self._do("felter_conductor_reader", reader)
        return reader

    def work(self, now: int, limit: int = 2**32 - 1) -> Work:
        """Takes up to `limit` commands. Each command is applied at the moment `now`, and the reply to it is
        transmitted. If the extension in C is used, other Python threads wait during the call."""
        messages, stopped = self._do("felter_conductor_work", now, limit)
        self._wake()
        return Work(messages, WorkStop(stopped))

    def find(self, type_id: int, registration: int) -> typing.Optional[int]:
        """Returns the lowest id in use with this type id and registration id, or None."""
        try:
            return self._do("felter_conductor_find", type_id, registration)
        except Error as refused:
            if refused.number != Number.NOT_ALLOCATED:
                raise
            return None

    def count(self) -> int:
        """Returns the number of ids, whether they are in use or not."""
        return self._do("felter_conductor_count")

    def value(self, counter: int) -> int:
        """Returns a counter's value."""
        return self._do("felter_conductor_value", counter)

    def type_id(self, counter: int) -> int:
        """Returns a counter's type id."""
        return self._do("felter_conductor_type_id", counter)

    def registration(self, counter: int) -> int:
        """Returns a counter's registration id."""
        return self._do("felter_conductor_registration", counter)

    def owner(self, counter: int) -> int:
        """Returns a counter's owner, or 0 if the counter has no owner."""
        return self._do("felter_conductor_owner", counter)

    def state(self, counter: int) -> int:
        """Returns the state of an id. The state is 0 if the id was never used, 1 if its counter is in use, and -1 if
        its counter was freed."""
        return self._do("felter_conductor_state", counter)

    def deadline(self, counter: int) -> int:
        """Returns the moment from which an id may be allocated again. This moment is 0 if the id was never used, and
        2^63 - 1 if its counter is in use."""
        return self._do("felter_conductor_deadline", counter)

    def label(self, counter: int) -> bytes:
        """Returns a counter's label."""
        return self._do("felter_conductor_label", counter, 380)

    def key(self, counter: int) -> bytes:
        """Returns a counter's key, which is filled up to 112 bytes with zeros."""
        return self._do("felter_conductor_key", counter, 112)

    def set_heartbeat(self, value: int) -> None:
        """Stores the heartbeat that clients load."""
        self._do("felter_conductor_set_heartbeat", value)

    def join(self, client: "Client") -> None:
        """Takes back a client of this conductor with its shares."""
        self._with("felter_conductor_join", client)

    def join_receiver(self, receiver: Receiver) -> None:
        """Takes back a receiver of this conductor with its share."""
        self._with("felter_conductor_join_receiver", receiver)

    def join_reader(self, reader: Reader) -> None:
        """Takes back a reader of this conductor with its share."""
        self._with("felter_conductor_join_reader", reader)

    def finish(self) -> Finished:
        """Ends a conductor whose clients, receivers and readers were all taken back or freed. While a client, a
        receiver or a reader exists, the call raises an Error, and leaves the conductor as it was. The number of the
        Error is the first of these that applies:

        - PRODUCERS_OUT if a client was neither taken back nor freed;
        - RECEIVERS_OUT if a receiver was neither taken back nor freed;
        - IN_USE otherwise.
        """
        return Finished(*self._do("felter_conductor_finish"))


class Client(Owner):
    """Sends commands to a conductor, and receives the replies. Each call that sends a command tries once, and returns
    the correlation id that was drawn for the command. `poll` returns the reply after the conductor has transmitted
    it."""

    def allocate(self, type_id: int, key: Buffer = b"", label: Buffer = b"", owner: int = 0) -> int:
        """Asks the conductor to allocate a counter with the value 0. The registration id of the counter is the
        correlation id of the command. The owner 0 means that the counter has no owner. The command takes 20 bytes, plus
        the bytes of the key and the label. The command for a counter with an owner takes 8 bytes more."""
        if owner == 0:
            return self._do("felter_send_allocate", type_id, key, label)
        return self._do("felter_send_allocate_owned", type_id, owner, key, label)

    def release(self, counter: int) -> int:
        """Asks the conductor to free a counter."""
        return self._do("felter_send_free", counter)

    def set(self, counter: int, value: int) -> int:
        """Asks the conductor to set a counter's value."""
        return self._do("felter_send_set", counter, value)

    def close_owner(self, owner: int) -> int:
        """Asks the conductor to free each counter of an owner."""
        return self._do("felter_send_close_owner", owner)

    def is_abandoned(self) -> bool:
        """Returns whether the conductor was freed, or has finished. No further reply will then come."""
        return self._is_abandoned()

    def poll(self, correlation: int) -> typing.Optional[Reply]:
        """Returns the reply to the command with this correlation id, or None if it is not there yet. The call passes
        over replies to other commands. So poll for the replies to one client's commands in the order in which the
        commands were sent.

        The call raises Lapped if the conductor overtook the client. The next call goes on with the reply that was
        transmitted last. The client does not learn the results of the commands that had no reply yet."""
        while True:
            try:
                found = self._try("felter_poll", correlation)
            except Error as refused:
                if refused.number != Number.OTHER_REPLY:
                    raise
            else:
                return found and Reply(ReplyKind(found[0]), found[1])

    def request(
        self, send: typing.Callable[..., int], *parameters: typing.Any, timeout: typing.Optional[float] = None
    ) -> Reply:
        """Sends a command, and waits for its reply for `timeout` seconds: `client.request(client.set, 3, 7,
        timeout=1)`. If `timeout` is None, waits for ever. The call sends the command again while the ring is full or
        another client is faster. The call passes over the replies to other commands. So a client has only one request
        at a time.

        If the conductor overtakes the client, the reply may be lost. Then the call soon sends a second command, which
        frees an id that no counter has, and so changes nothing. Replies to one client come in the order of its
        commands. So the reply to the second command shows that the conductor had already taken the first one.

        The call raises Full or Contended if the command was not sent in time. It raises Unanswered if no reply came,
        and Disconnected if the conductor is gone."""
        end = None if timeout is None else time.monotonic() + timeout
        correlation = self._sent(lambda: send(*parameters), timeout)
        return self._reply_to(correlation, end)

    def _sent(self, send: typing.Callable[[], int], timeout: typing.Optional[float]) -> int:
        refused: typing.List[Error] = []

        def attempt() -> typing.Optional[int]:
            try:
                return send()
            except (Full, Contended) as why:
                refused[:] = [why]
                return None

        try:
            correlation = wait_for(attempt, timeout, self.is_abandoned)
            if correlation is None:
                raise refused[0]
            return correlation
        finally:
            # (an exception refers to its frames, and so to this list, which would keep this client alive)
            refused.clear()

    def _reply_to(self, correlation: int, end: typing.Optional[float]) -> Reply:
        is_lapped, pause = False, 0.0
        after: typing.Optional[int] = None
        looks = 0
        while True:
            is_last = self.is_abandoned()
            try:
                reply = self.poll(correlation if after is None else after)
            except Lapped:
                is_lapped, after, looks, pause = True, None, 0, 0.0
                continue
            if reply is not None:
                if after is None:
                    return reply
                raise Unanswered(Outcome.TAKEN, correlation)
            if is_last:
                raise Disconnected("the conductor is gone")
            if end is not None and time.monotonic() >= end:
                raise Unanswered(Outcome.UNKNOWN if is_lapped else Outcome.PENDING, correlation)
            looks += 1
            if is_lapped and after is None and looks > LOOKS:
                with contextlib.suppress(Full, Contended):
                    after = self.release(NO_COUNTER)
            time.sleep(pause if end is None else max(0.0, min(pause, end - time.monotonic())))
            pause = min(pause * 2 or 1e-6, 1e-3)

    def heartbeat(self) -> int:
        """Loads the heartbeat that the conductor stored last. The heartbeat is 0 before the conductor stores one."""
        return self._do("felter_client_heartbeat")
