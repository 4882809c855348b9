"""Controlled reads. After each message the caller decides how the read goes on."""

import enum
import typing

from felter._library import direct
from felter.claims import Settling
from felter.errors import Error, Number
from felter.message import Message


class Action(enum.Enum):
    """The ways in which a controlled read goes on after a message was shown."""

    ABORT = "stops, and the message stays in the ring"
    BREAK = "takes the message, and stops"
    COMMIT = "takes the message, and goes on"
    # CONTINUE does the same as COMMIT, since the producers get the room of each message as soon as it was taken.
    CONTINUE = "takes the message, and goes on with the next"


class Controlled(Settling):
    """A consumer that can show a message before the message is taken."""

    @direct
    def peek(self) -> typing.Optional[Message]:
        """Returns the next message, and leaves it in the ring. Returns None if no message is there yet."""
        found: typing.Optional[Message] = self._read_by("felter_peek")
        return found

    def take(self) -> bool:
        """Takes the next message from the ring, and returns whether there was one."""
        try:
            self._do("felter_take")
        except Error as refused:
            if refused.number != Number.NO_MESSAGE:
                raise
            return False
        return True

    def controlled_read(
        self, show: typing.Callable[[Message], Action], limit: typing.Optional[int] = None
    ) -> int:
        """Calls `show` with one message after another. If `limit` is not None, `show` is called with at most `limit`
        messages. The Action that `show` returns says whether the message is taken, and whether the read goes on.
        Returns how many messages were taken. If `show` raises, its message stays in the ring."""
        taken = 0
        while limit is None or taken < limit:
            message = self.peek()
            action = Action.ABORT if message is None else Action(show(message))
            if action is Action.ABORT:
                break
            self.take()
            taken += 1
            if action is Action.BREAK:
                break
        return taken
