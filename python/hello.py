"""One message through a ring."""

import felter

producer, consumer = felter.many_to_one(512)
with producer, consumer:
    producer.write(7, b"hello")
    for message in consumer:
        print(message.type_id, message.body.decode())
