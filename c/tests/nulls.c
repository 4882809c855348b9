/* Pointers that are NULL, and the texts of codes. */
#include "check.h"

int main(void) {
    felter_producer producer = FELTER_EMPTY;
    felter_producer empty = FELTER_EMPTY;
    felter_consumer consumer = FELTER_EMPTY;
    uint8_t buffer[16] = {5};
    int32_t type_id = -7;
    uint64_t number = 77;
    size_t len = 7;
    uint32_t written = 7;
    int64_t found = 7;
    felter_free(NULL);
    EXPECT(FELTER_NO_HANDLE, felter_many_to_one_new(128, NULL, &consumer));
    EXPECT(FELTER_NO_HANDLE, felter_many_to_one_new(128, &producer, NULL));
    EXPECT(FELTER_NO_HANDLE, felter_one_to_one_new_at(128, 0, NULL, NULL));
    EXPECT(FELTER_NO_HANDLE, felter_board_new(256, NULL));
    EXPECT(FELTER_NO_HANDLE, felter_write(NULL, 1, "hello", 5));
    EXPECT(FELTER_OK, felter_many_to_one_new(256, &producer, &consumer));
    EXPECT(FELTER_NULL_POINTER, felter_write(&producer, 1, NULL, 1));
    EXPECT(FELTER_NULL_POINTER, felter_claim(&producer, 1, 4, NULL));
    EXPECT(FELTER_NULL_POINTER, felter_positions(&producer, &number, NULL));
    EXPECT(FELTER_NO_HANDLE, felter_join(&producer, NULL));
    EXPECT(FELTER_NO_HANDLE, felter_split(NULL, &producer));
    EXPECT(FELTER_NULL_POINTER, felter_write_batch(&producer, NULL, 1, &written));
    EXPECT(FELTER_NULL_POINTER, felter_write_batch(&producer, buffer, 0, NULL));
    EXPECT(FELTER_NO_HANDLE, felter_write_batch(NULL, buffer, 0, &written));
    EXPECT(FELTER_NO_HANDLE, felter_write_batch(NULL, NULL, 1, NULL));
    CHECK(written == 7);
    EXPECT(FELTER_NO_HANDLE, felter_write_batch(&empty, NULL, 0, &written));
    CHECK(written == 7);
    EXPECT(FELTER_OK, felter_write_batch(&producer, NULL, 0, &written));
    CHECK(written == 0);
    written = 7;
    EXPECT(FELTER_OK, felter_write(&producer, 1, NULL, 0));
    EXPECT(FELTER_OK, felter_write(&producer, 2, "hello", 5));
    EXPECT(FELTER_NULL_POINTER, felter_read(&consumer, NULL, &len, buffer, sizeof buffer));
    EXPECT(FELTER_NULL_POINTER, felter_read(&consumer, &type_id, NULL, buffer, sizeof buffer));
    EXPECT(FELTER_NULL_POINTER, felter_read(&consumer, &type_id, &len, NULL, 1));
    EXPECT(FELTER_NULL_POINTER, felter_peek(&consumer, &type_id, NULL, buffer, sizeof buffer));
    EXPECT(FELTER_NO_HANDLE, felter_take(NULL));
    CHECK(type_id == -7 && len == 7 && buffer[0] == 5 && number == 77 && written == 7);
    EXPECT(FELTER_OK, felter_read(&consumer, &type_id, &len, NULL, 0));
    CHECK(type_id == 1 && len == 0);
    /* The answer of a function by its pointer, and what a buffer that is too short puts out. */
    int32_t (*read)(felter_consumer *, int32_t *, size_t *, void *, size_t) = felter_read;
    EXPECT(FELTER_NO_HANDLE, read(NULL, &type_id, &len, buffer, 4));
    EXPECT(FELTER_SHORT_BUFFER, read(&consumer, &type_id, &len, buffer, 4));
    CHECK(type_id == 2 && len == 5 && buffer[0] == 5);
    EXPECT(FELTER_NULL_POINTER, felter_recover(NULL, 1, &number, &written, &len, buffer, sizeof buffer));
    EXPECT(FELTER_NULL_POINTER, felter_recover(buffer, 0, NULL, &written, &len, buffer, sizeof buffer));
    EXPECT(FELTER_NULL_POINTER, felter_recover(buffer, 0, &number, NULL, &len, buffer, sizeof buffer));
    EXPECT(FELTER_NULL_POINTER, felter_recover(buffer, 0, &number, &written, NULL, buffer, sizeof buffer));
    EXPECT(FELTER_NULL_POINTER, felter_recover(buffer, 0, &number, &written, &len, NULL, 1));
    EXPECT(FELTER_NULL_POINTER, felter_finding(NULL, 1, &len, NULL, 0));
    EXPECT(FELTER_NULL_POINTER, felter_finding(buffer, 0, NULL, NULL, 0));
    EXPECT(FELTER_NULL_POINTER, felter_finding(buffer, 0, &len, NULL, 1));
    EXPECT(FELTER_NULL_POINTER, felter_recover_words(NULL, 1, &number, 0, &number, &found, &number, &written, &len,
                                                     NULL, 0));
    EXPECT(FELTER_NULL_POINTER, felter_recover_words(&number, 0, NULL, 1, &number, &found, &number, &written, &len,
                                                     NULL, 0));
    EXPECT(FELTER_NULL_POINTER, felter_recover_words(NULL, 0, NULL, 0, NULL, &found, &number, &written, &len, NULL, 0));
    EXPECT(FELTER_NULL_POINTER, felter_recover_words(NULL, 0, NULL, 0, &number, NULL, &number, &written, &len, NULL, 0));
    EXPECT(FELTER_NO_IMAGE, felter_recover_words(NULL, 0, NULL, 0, &number, &found, &number, &written, &len, NULL, 0));
    CHECK(strcmp(felter_text(FELTER_OK), "no error") == 0);
    CHECK(strcmp(felter_text(FELTER_INSUFFICIENT_CAPACITY), "the ring is full") == 0);
    CHECK(strcmp(felter_text(FELTER_NULL_POINTER), "a pointer is NULL") == 0);
    CHECK(strcmp(felter_text(-1), "unknown code") == 0 && strcmp(felter_text(103), "unknown code") == 0);
    felter_free(&producer.handle);
    felter_free(&consumer.handle);
    return 0;
}
