/* Rows of batches for stress.c, which were worked out from docs/FORMATS.md. */
#ifndef TWINS_BATCH_ROWS_H
#define TWINS_BATCH_ROWS_H

#if HAS_MARKS
/* Runs: a batch is cut at the end of the buffer, and a read that stops inside a run leaves a mark for its rest. */
static void test_batches(bool is_for_one) {
    struct ring ring;
    struct last last = {.action = ACT_ABORT};
    const uint8_t body[8] = {1, 2, 3};
    struct message messages[5] = {{body, 0, 1}, {body, 3, 2}, {body, 0, 3}, {body, 0, 4}, {body, 0, 5}};
    ring_open(&ring, 256, 0);
    /* a run takes at most 40 bytes, and these records take 8 + 16 + 8 + 8 = 40, and 8 */
    CHECK(ring_write_batch(&ring, is_for_one, messages, 5) == 5 && word_at(in_trailer(&ring, RING_TAIL)) == 48);
    CHECK(word_of(&ring, 0) == 40 && word_of(&ring, 1) == 0 && word_of(&ring, 5) == 48);
    CHECK(word_at(ring.slots) == 0x0000000100000008 && word_at(ring.slots + 8) == 0x000000020000000b);
    CHECK(ring_read(&ring, 1, keep_plain, &last) == 1 && last.type == 1 && word_of(&ring, 1) == 40);
    CHECK(ring_controlled_read(&ring, 9, keep, &last) == 0 && last.type == 2 && last.len == 3);
    last.action = ACT_COMMIT;
    CHECK(ring_controlled_read(&ring, 1, keep, &last) == 1 && word_of(&ring, 3) == 40);
    CHECK(ring_read(&ring, 9, keep_plain, &last) == 3 && last.type == 5);
    check_no_record(&ring);
    for (int k = 0; k < 24; k++) CHECK(ring_write(&ring, is_for_one, 1, body, 0) == 0);
    CHECK(ring_read(&ring, 30, keep_plain, &last) == 24);
    /* the tail is 240: 16 bytes are left, and the third record goes to the front */
    messages[1].len = 0;
    CHECK(ring_write_batch(&ring, is_for_one, messages, 3) == 3 && word_of(&ring, 30) == 256 && word_of(&ring, 0) == 264);
    CHECK(ring_read(&ring, 9, keep_plain, &last) == 2 && ring_read(&ring, 9, keep_plain, &last) == 1 && last.type == 3);
    check_no_record(&ring);
    for (int k = 0; k < 30; k++) CHECK(ring_write(&ring, is_for_one, 1, body, 0) == 0);
    CHECK(ring_write_batch(&ring, is_for_one, messages, 5) == 2);
    CHECK(ring_write_batch(&ring, is_for_one, messages, 5) == INSUFFICIENT_CAPACITY);
    messages[1].type = 0;
    CHECK(ring_write_batch(&ring, is_for_one, messages, 2) == BAD_TYPE);
    ring_close(&ring);
}
#elif HAS_BATCHES
static void test_batches(bool is_for_one) {
    struct ring ring;
    struct last last = {.action = ACT_COMMIT};
    const uint8_t body[16] = {1, 2, 3, 4, 5, 6, 7, 8, 9};
    struct message messages[4] = {{body, 16, 1}, {body, 16, 2}, {body, 16, 3}, {body, 16, 4}};
    ring_open(&ring, 128, 0);
    CHECK(ring_write_batch(&ring, is_for_one, messages, 4) == 4 && word_at(in_trailer(&ring, RING_TAIL)) == 96);
    CHECK(word_of(&ring, 0) == 0x0000000100000018 && word_of(&ring, 9) == 0x0000000400000018);
    /* a second one would need a padding of 8 bytes and 72 more, and there are 32 */
    CHECK(ring_write_batch(&ring, is_for_one, messages, 4) == INSUFFICIENT_CAPACITY && word_of(&ring, 12) == 0);
    CHECK(ring_controlled_read(&ring, 3, keep, &last) == 3 && last.type == 3 && last.len == 16);
    CHECK(word_at(in_trailer(&ring, RING_HEAD)) == 72 && memcmp(last.body, body, 16) == 0);
    CHECK(ring_write_batch(&ring, is_for_one, messages, 3) == 3 && word_at(in_trailer(&ring, RING_TAIL)) == 176);
    CHECK(word_of(&ring, 15) == 0xffffffff00000008 && word_of(&ring, 0) == 0x0000000200000018);
    last.action = ACT_ABORT;
    CHECK(ring_controlled_read(&ring, 9, keep, &last) == 0 && word_at(in_trailer(&ring, RING_HEAD)) == 72);
    last.action = ACT_BREAK;
    CHECK(ring_controlled_read(&ring, 9, keep, &last) == 1 && last.type == 4);
    CHECK(ring_read(&ring, 9, keep_plain, &last) == 3 && last.type == 3);
    CHECK(word_at(in_trailer(&ring, RING_HEAD)) == 176 && ring_read(&ring, 9, keep_plain, &last) == 0);
    messages[1].type = 0;
    CHECK(ring_write_batch(&ring, is_for_one, messages, 2) == BAD_TYPE && word_at(in_trailer(&ring, RING_TAIL)) == 176);
    CHECK(next_correlation_id(&ring) == 0 && next_correlation_id(&ring) == 1);
    ring_close(&ring);
}
#endif

#endif
