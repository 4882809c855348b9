/* One message through a ring: cc -o hello c/examples/hello.c -Ic/out c/out/libfelter.a */
#include "felter.h"

#include <stdio.h>

int main(void) {
    felter_producer producer = FELTER_EMPTY;
    felter_consumer consumer = FELTER_EMPTY;
    uint8_t body[64];
    int32_t type_id;
    size_t len;
    if (felter_many_to_one_new(512, &producer, &consumer) != FELTER_OK) return 1;
    if (felter_write(&producer, 7, "hello", 5) != FELTER_OK) return 1;
    if (felter_read(&consumer, &type_id, &len, body, sizeof body) != FELTER_OK) return 1;
    printf("%d %.*s\n", (int)type_id, (int)len, (const char *)body);
    felter_free(&producer.handle);
    felter_free(&consumer.handle);
    return 0;
}
