"""A thread writes 1,000 messages, and this one reads them."""

import threading

import felter

producer, consumer = felter.many_to_one(1024)


def write_all():
    for i in range(1000):
        while True:
            try:
                producer.write(1, b"%d" % i)
                break
            except felter.Full:
                pass


thread = threading.Thread(target=write_all)
thread.start()
read = []
while len(read) < 1000:
    read += [int(message.body) for message in consumer]
thread.join()
assert read == list(range(1000))
print(len(read), "messages, in order")
