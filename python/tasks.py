"""The tasks of docs/USING.md in Python. The program prints c/examples/tasks.out, as the same tasks in C and Rust do."""

import struct
import threading
import time

import felter

NUMBER, TEXT, LAST = 1, 7, 1000


def add_up() -> None:
    """Sends messages to another thread. One thread sends numbers, and this thread adds them up. Both threads wait
    without a deadline."""
    producer, consumer = felter.one_to_one(1024)

    def send_numbers() -> None:
        for number in range(1, LAST + 1):
            producer.write(NUMBER, struct.pack("=i", number), timeout=None)

    sender = threading.Thread(target=send_numbers)
    sender.start()
    total = 0
    for _ in range(LAST):
        (number,) = struct.unpack("=i", consumer.read(timeout=None).body)
        total += number
    sender.join()
    print("sum", total)


def offer(producer: felter.Producer, text: str) -> str:
    """Tries to write a message once, and prints the result."""
    try:
        producer.write(TEXT, text.encode())
        return "sent"
    except felter.Full:
        return "full: read first, or drop it"
    except felter.Contended:
        return "another producer was faster: at once again"


def standing(producer: felter.Producer, consumer: felter.Consumer) -> str:
    """Prints what a consumer finds next."""
    texts = {
        felter.Found.MESSAGE: "a message",
        felter.Found.NONE: "empty",
        felter.Found.CLAIM: "blocked by a claim",
        felter.Found.CHANGE: "changing: ask again",
    }
    return texts[consumer.standing(producer).found]


def close_ring(producer: felter.Producer, consumer: felter.Consumer) -> None:
    """Closes a ring. Afterwards no producer is left, and unread messages can still be read."""
    consumer.close(producer)
    for message in consumer:
        print(message.type_id, message.body.decode())
    print("left", consumer.finish())


def look_at_ring() -> None:
    """Shows a ring that is empty, full, blocked and closed."""
    producer, consumer = felter.many_to_one(128)
    print(standing(producer, consumer))
    claim = producer.claim(TEXT, 5)
    for _ in range(7):
        offer(producer, "hello")
    print(offer(producer, "hello"))
    print(standing(producer, consumer))
    claim.abort()
    close_ring(producer, consumer)


def is_lapped() -> None:
    """Shows a lapped receiver, which goes on with the message that was transmitted last."""
    transmitter = felter.Transmitter(256)
    receiver = transmitter.subscribe()
    for tick in range(1, 21):
        transmitter.transmit(TEXT, b"tick %d" % tick)
    try:
        receiver.receive()
    except felter.Lapped as lap:
        print("lapped %d, missed %d bytes" % (lap.count, lap.missed_bytes))
    print(receiver.receive().body.decode())


def watch_counter() -> None:
    """Shows a counter that another thread watches."""
    counters = felter.Counters(4, 1000)
    reader = counters.reader()
    counter = counters.allocate(0, 1, b"", b"requests", 0)
    counters.add(counter, 5)
    watcher = threading.Thread(target=lambda: print("requests", reader.value(counter)))
    watcher.start()
    watcher.join()


def serve(conductor: felter.Conductor, stop: threading.Event) -> None:
    """Serves commands until it is stopped and no command is left."""
    while True:
        # Load this first: then the work below takes all commands that were sent before the stop.
        is_last = stop.is_set()
        work = conductor.work(0)
        if work.stopped == felter.WorkStop.UNPUBLISHED:
            if is_last:
                return
            time.sleep(0.001)


def set_counter(client: felter.Client, counter: int, value: int) -> felter.Reply:
    """Sends a Set and waits for its reply."""
    while True:
        try:
            correlation = client.set(counter, value)
            break
        except (felter.Full, felter.Contended):
            time.sleep(0.001)
    while True:
        reply = client.poll(correlation)
        if reply:
            return reply
        time.sleep(0.001)


def ask_conductor() -> None:
    """Shows a conductor with one client, which sets a counter that was never allocated."""
    conductor = felter.Conductor(1024, 1024, 4, 1000)
    client = conductor.client()
    stop = threading.Event()
    serving = threading.Thread(target=serve, args=(conductor, stop))
    serving.start()
    reply = set_counter(client, 0, 42)
    stop.set()
    serving.join()
    if reply.kind == felter.ReplyKind.REFUSED:
        print("refused", reply.number)
    conductor.join(client)
    finished = conductor.finish()
    print("received %d left %d" % (finished.received, finished.left))


if __name__ == "__main__":
    add_up()
    look_at_ring()
    is_lapped()
    watch_counter()
    ask_conductor()
