"""Rings, boards, counters and conductors for the threads of one process. A board is a broadcast buffer.

    producer, consumer = felter.many_to_one(65536)
    producer.write(7, b"hello")
    for message in consumer:
        print(message.type_id, message.body)

Calls. A read returns None if no message is there. A call with a timeout waits. A refused call raises an `Error`, whose
`number` says why. "Raises OTHER_RING" means an Error with the number OTHER_RING. If the ring is full, the Error is a
`Full`. If another producer was faster, the Error is a `Contended`. In both cases `is_passing` is True, and the same
call may succeed later. `is_abandoned` returns whether the other side is gone. A `Doorbell` wakes event loops.
Capacities, lengths and positions are in bytes. Moments are in milliseconds of a clock that the caller chooses. If
Python is out of memory when a read makes the objects for its messages, the read raises MemoryError, and these messages
are lost. A message that `peek` returned stays in the ring until `take`.

Files. `many_to_one_in_file`, `one_to_one_in_file`, `Transmitter.in_file` and `Counters.in_file` make a structure in a
new file. Its words and bodies survive the death of the process. Another process may look at the file, and must not
write to it. After the process of a ring died, `recover` returns the messages that are left in the file.

Layouts. The headers and the bodies of messages are stored separately from the words that threads share. So rings do not
have the memory layout of Agrona's rings.

Handles. A handle is a producer, a consumer, or another object with calls. Any thread may use a handle, but only one
call at a time uses it. Handles are context managers, and free what they own at the end of the `with` block. The rules
are:

- A handle must not be copied or pickled.
- A handle must not be used in a forked child, nor by a signal handler that interrupted a call of the same handle. A
  call that breaks this rule raises RuntimeError.
- If two handles of a call belong to different rings, boards, sets of counters, shared counters or conductors, the call
  raises OTHER_RING. This module gives each of these structures a number, from one count. Both the module and the
  library compare the numbers.

The library. If FELTER_DIR names a folder, the library is libfelter.so in that folder. Otherwise the library is in this
package, or in the repository's c/out, which c/build fills. `implementation` says how calls reach the library:

- "extension": The calls use an extension in C, which is in the folder of the library. The extension keeps the global
  interpreter lock, since no call waits.
- "ctypes": The calls use ctypes if FELTER_PURE is 1. They also use ctypes, with an ImportWarning, if there is no
  extension for this Python, or if another copy of this package in the process has the extension. Such a copy can be in
  another interpreter. With ctypes the garbage collector frees the handles of a cycle of objects before it calls the
  methods `__del__` of the cycle, so these methods cannot use the handles.

Before Python 3.10, a Ctrl-C during a call through ctypes can leave the handle of this call locked. Later calls of the
handle are then refused.

The library is proved. This module is tested and not proved.
"""

from felter._library import implementation
from felter._owner import Sizes
from felter.adders import Adder
from felter.boards import Lap, RawReceiver, RawRecord, Receiver, Transmitter
from felter.claims import Claim
from felter.conductor import Client, Conductor, Finished, Outcome, Reply, ReplyKind, Unanswered, Work, WorkStop
from felter.controlled import Action
from felter.counters import Counters, Reader
from felter.errors import Closed, Contended, Damaged, Disconnected, Error, Full, Lapped, Number
from felter.message import Buffer, Message
from felter.recovering import Recovered, recover
from felter.rings import (
    Consumer,
    Found,
    Positions,
    Producer,
    Standing,
    many_to_one,
    many_to_one_in_file,
    one_to_one,
    one_to_one_in_file,
)
from felter.waiting import Doorbell

__version__ = "0.1.0"

__all__ = [
    "Action",
    "Adder",
    "Buffer",
    "Claim",
    "Client",
    "Closed",
    "Conductor",
    "Consumer",
    "Contended",
    "Counters",
    "Damaged",
    "Disconnected",
    "Doorbell",
    "Error",
    "Finished",
    "Found",
    "Full",
    "Lap",
    "Lapped",
    "Message",
    "Number",
    "Outcome",
    "Positions",
    "Producer",
    "RawReceiver",
    "RawRecord",
    "Reader",
    "Receiver",
    "Recovered",
    "Reply",
    "ReplyKind",
    "Sizes",
    "Standing",
    "Transmitter",
    "Unanswered",
    "Work",
    "WorkStop",
    "__version__",
    "implementation",
    "many_to_one",
    "many_to_one_in_file",
    "one_to_one",
    "one_to_one_in_file",
    "recover",
]
