/* A thread writes 1,000 messages, and this one reads them. */
#include <felter.h>

#include <pthread.h>
#include <stdio.h>
#include <string.h>

static void *write_all(void *its) {
    felter_producer *producer = its;
    for (uint32_t i = 0; i < 1000; i++) {
        int32_t code;
        while ((code = felter_write(producer, 1, &i, sizeof i)) == FELTER_INSUFFICIENT_CAPACITY) continue;
        if (code != FELTER_OK) return NULL;
    }
    return its;
}

int main(void) {
    felter_producer producer = FELTER_EMPTY;
    felter_consumer consumer = FELTER_EMPTY;
    pthread_t thread;
    uint32_t next = 0, value;
    int32_t type_id, code;
    size_t len;
    if ((code = felter_one_to_one_new(1024, &producer, &consumer)) != FELTER_OK) {
        fprintf(stderr, "%s\n", felter_text(code));
        return 1;
    }
    if (pthread_create(&thread, NULL, write_all, &producer) != 0) return 1;
    while (next < 1000) {
        code = felter_read(&consumer, &type_id, &len, &value, sizeof value);
        if (code == FELTER_NO_MESSAGE) continue;
        if (code != FELTER_OK || len != sizeof value || value != next++) return 1;
    }
    pthread_join(thread, NULL);
    felter_free(&producer.handle);
    felter_free(&consumer.handle);
    printf("%u messages, in order\n", next);
    return 0;
}
