/* The calls of felter.h for felter.Native. Handles and buffers are addresses. Numbers that a call writes go to the
 * address `out`. A result is a code of felter.h. If the result can also be a number of 0 or more, the code is
 * negated. */
#include "felter.h"

#include <jni.h>
#include <stdlib.h>
#include <string.h>

#define NATIVE(type, name) JNIEXPORT type JNICALL Java_felter_Native_##name
#define HERE JNIEnv *env, jclass its

/* Returns the pointer for an address of Java. */
static void *at(jlong address) {
    return (void *)(intptr_t)address;
}

NATIVE(jlong, handle)(HERE) {
    (void)env, (void)its;
    return (jlong)(intptr_t)calloc(1, sizeof(felter_handle));
}

NATIVE(void, free)(HERE, jlong handle) {
    (void)env, (void)its;
    felter_free(at(handle));
    free(at(handle));
}

NATIVE(jlong, address)(HERE, jobject buffer) {
    (void)its;
    return (jlong)(intptr_t)(*env)->GetDirectBufferAddress(env, buffer);
}

NATIVE(jstring, text)(HERE, jint code) {
    (void)its;
    return (*env)->NewStringUTF(env, felter_text(code));
}

/* Rings */

NATIVE(jint, ringNew)(HERE, jboolean is_one, jint capacity, jlong producer, jlong consumer) {
    (void)env, (void)its;
    return is_one ? felter_one_to_one_new((uint32_t)capacity, at(producer), at(consumer))
                  : felter_many_to_one_new((uint32_t)capacity, at(producer), at(consumer));
}

NATIVE(jint, split)(HERE, jlong producer, jlong other) {
    (void)env, (void)its;
    return felter_split(at(producer), at(other));
}

NATIVE(jint, join)(HERE, jlong producer, jlong other) {
    (void)env, (void)its;
    return felter_join(at(producer), at(other));
}

NATIVE(jint, write)(HERE, jlong producer, jint type_id, jlong body, jint len) {
    (void)env, (void)its;
    return felter_write(at(producer), type_id, at(body), (size_t)len);
}

NATIVE(jint, writeBytes)(HERE, jlong producer, jint type_id, jbyteArray body, jint index, jint len) {
    (void)its;
    jbyte *bytes = (*env)->GetPrimitiveArrayCritical(env, body, NULL);
    if (!bytes) return FELTER_OUT_OF_MEMORY;
    int32_t code = felter_write(at(producer), type_id, bytes + index, (size_t)len);
    (*env)->ReleasePrimitiveArrayCritical(env, body, bytes, JNI_ABORT);
    return code;
}

NATIVE(jint, claim)(HERE, jlong producer, jint type_id, jint len, jlong out) {
    (void)env, (void)its;
    return felter_claim(at(producer), type_id, (size_t)len, at(out));
}

NATIVE(jint, putAndCommit)(HERE, jlong producer, jlong claim, jlong bytes, jint len) {
    (void)env, (void)its;
    int32_t code = felter_put(at(producer), (uint64_t)claim, 0, at(bytes), (size_t)len);
    return code ? code : felter_commit(at(producer), (uint64_t)claim);
}

NATIVE(jint, abort)(HERE, jlong producer, jlong claim) {
    (void)env, (void)its;
    return felter_abort(at(producer), (uint64_t)claim);
}

/* Returns the number of messages, or a negated code. */
NATIVE(jint, readBatch)(HERE, jlong consumer, jint limit, jlong buffer, jlong room) {
    (void)env, (void)its;
    uint32_t count = 0;
    size_t used = 0;
    int32_t code = felter_read_batch(at(consumer), (uint32_t)limit, &count, &used, at(buffer), (size_t)room);
    return code ? -code : (jint)count;
}

/* Returns the length of the message, or a negated code. Writes the type id. */
NATIVE(jint, peek)(HERE, jlong consumer, jlong buffer, jint room, jlong out) {
    (void)env, (void)its;
    size_t len = 0;
    int32_t code = felter_peek(at(consumer), at(out), &len, at(buffer), (size_t)room);
    return code ? -code : (jint)len;
}

NATIVE(jint, take)(HERE, jlong consumer) {
    (void)env, (void)its;
    return felter_take(at(consumer));
}

/* Writes the head and the tail. */
NATIVE(jint, positions)(HERE, jlong producer, jlong out) {
    (void)env, (void)its;
    uint64_t *to = at(out);
    return felter_positions(at(producer), to, to + 1);
}

NATIVE(jint, nextId)(HERE, jlong producer, jlong out) {
    (void)env, (void)its;
    return felter_next_id(at(producer), at(out));
}

NATIVE(jint, heartbeat)(HERE, jlong producer, jlong out) {
    (void)env, (void)its;
    return felter_heartbeat(at(producer), at(out));
}

NATIVE(jint, setHeartbeat)(HERE, jlong consumer, jlong value) {
    (void)env, (void)its;
    return felter_set_heartbeat(at(consumer), (uint64_t)value);
}

/* Broadcast buffers */

NATIVE(jint, boardNew)(HERE, jint capacity, jlong transmitter) {
    (void)env, (void)its;
    return felter_board_new((uint32_t)capacity, at(transmitter));
}

NATIVE(jint, transmit)(HERE, jlong transmitter, jint type_id, jlong body, jint len) {
    (void)env, (void)its;
    return felter_transmit(at(transmitter), type_id, at(body), (size_t)len);
}

NATIVE(jint, transmitBytes)(HERE, jlong transmitter, jint type_id, jbyteArray body, jint index, jint len) {
    (void)its;
    jbyte *bytes = (*env)->GetPrimitiveArrayCritical(env, body, NULL);
    if (!bytes) return FELTER_OUT_OF_MEMORY;
    int32_t code = felter_transmit(at(transmitter), type_id, bytes + index, (size_t)len);
    (*env)->ReleasePrimitiveArrayCritical(env, body, bytes, JNI_ABORT);
    return code;
}

NATIVE(jint, subscribe)(HERE, jlong transmitter, jlong receiver) {
    (void)env, (void)its;
    return felter_subscribe(at(transmitter), at(receiver));
}

NATIVE(jint, boardJoin)(HERE, jlong transmitter, jlong receiver) {
    (void)env, (void)its;
    return felter_board_join(at(transmitter), at(receiver));
}

/* Returns the length of the message, or a negated code. Writes the type id, or after a lap the number of laps. */
NATIVE(jint, receive)(HERE, jlong receiver, jlong buffer, jint room, jlong out) {
    (void)env, (void)its;
    uint64_t *to = at(out);
    size_t len = 0;
    int32_t type_id = 0;
    int32_t code = felter_receive(at(receiver), &type_id, &len, to + 1, at(buffer), (size_t)room);
    memcpy(to, &type_id, sizeof type_id);
    return code ? -code : (jint)len;
}

NATIVE(jint, subscribeRaw)(HERE, jlong transmitter, jlong receiver) {
    (void)env, (void)its;
    return felter_subscribe_raw(at(transmitter), at(receiver));
}

NATIVE(jint, boardJoinRaw)(HERE, jlong transmitter, jlong receiver) {
    (void)env, (void)its;
    return felter_board_join_raw(at(transmitter), at(receiver));
}

/* Returns the length of the body, or a negated code. Writes the type id, or after a lap the number of laps. */
NATIVE(jint, receiveNext)(HERE, jlong receiver, jlong out) {
    (void)env, (void)its;
    uint64_t *to = at(out);
    size_t len = 0;
    int32_t type_id = 0;
    int32_t code = felter_receive_next(at(receiver), &type_id, &len, to + 1);
    memcpy(to, &type_id, sizeof type_id);
    return code ? -code : (jint)len;
}

NATIVE(jint, loadBody)(HERE, jlong receiver, jlong buffer, jint room) {
    (void)env, (void)its;
    return felter_load_body(at(receiver), at(buffer), (size_t)room);
}

NATIVE(jint, validate)(HERE, jlong receiver) {
    (void)env, (void)its;
    return felter_validate(at(receiver));
}

/* Counters */

NATIVE(jint, countersNew)(HERE, jint count, jint reuse_ms, jlong counters) {
    (void)env, (void)its;
    return felter_counters_new((uint32_t)count, (uint32_t)reuse_ms, at(counters));
}

/* Returns the id, or a negated code. */
NATIVE(jint, allocate)(HERE, jlong counters, jlong now, jint type_id, jbyteArray key, jbyteArray label,
                       jlong registration, jlong owner) {
    (void)its;
    jsize key_len = (*env)->GetArrayLength(env, key), label_len = (*env)->GetArrayLength(env, label);
    jbyte *keys = (*env)->GetByteArrayElements(env, key, NULL);
    /* (no other call of JNI may be made while an exception is pending) */
    jbyte *labels = keys ? (*env)->GetByteArrayElements(env, label, NULL) : NULL;
    uint32_t id = 0;
    int32_t code = keys && labels
        ? felter_counter_allocate_owned(at(counters), (uint64_t)now, type_id, keys, (size_t)key_len, labels,
                                        (size_t)label_len, (uint64_t)registration, (uint64_t)owner, &id)
        : FELTER_OUT_OF_MEMORY;
    if (keys) (*env)->ReleaseByteArrayElements(env, key, keys, JNI_ABORT);
    if (labels) (*env)->ReleaseByteArrayElements(env, label, labels, JNI_ABORT);
    return code ? -code : (jint)id;
}

NATIVE(jint, counterFree)(HERE, jlong counters, jlong now, jint id) {
    (void)env, (void)its;
    return felter_counter_free(at(counters), (uint64_t)now, (uint32_t)id);
}

NATIVE(jint, counterSet)(HERE, jlong counters, jint id, jlong value) {
    (void)env, (void)its;
    return felter_counter_set(at(counters), (uint32_t)id, value);
}

NATIVE(jint, counterAdd)(HERE, jlong counters, jint id, jlong delta, jlong out) {
    (void)env, (void)its;
    return felter_counter_add(at(counters), (uint32_t)id, delta, at(out));
}

NATIVE(jint, counterIncrement)(HERE, jlong counters, jint id, jlong out) {
    (void)env, (void)its;
    return felter_counter_increment(at(counters), (uint32_t)id, at(out));
}

NATIVE(jint, counterDecrement)(HERE, jlong counters, jint id, jlong out) {
    (void)env, (void)its;
    return felter_counter_decrement(at(counters), (uint32_t)id, at(out));
}

NATIVE(jint, counterGetAndSet)(HERE, jlong counters, jint id, jlong value, jlong out) {
    (void)env, (void)its;
    return felter_counter_get_and_set(at(counters), (uint32_t)id, value, at(out));
}

NATIVE(jint, counterCompareAndSet)(HERE, jlong counters, jint id, jlong expected, jlong value, jlong out) {
    (void)env, (void)its;
    return felter_counter_compare_and_set(at(counters), (uint32_t)id, expected, value, at(out));
}

NATIVE(jint, counterProposeMax)(HERE, jlong counters, jint id, jlong value, jlong out) {
    (void)env, (void)its;
    return felter_counter_propose_max(at(counters), (uint32_t)id, value, at(out));
}

NATIVE(jint, counterValue)(HERE, jlong counters, jint id, jlong out) {
    (void)env, (void)its;
    return felter_counter_value(at(counters), (uint32_t)id, at(out));
}

NATIVE(jint, counterRegistration)(HERE, jlong counters, jint id, jlong out) {
    (void)env, (void)its;
    return felter_counter_registration(at(counters), (uint32_t)id, at(out));
}

NATIVE(jint, counterOwner)(HERE, jlong counters, jint id, jlong out) {
    (void)env, (void)its;
    return felter_counter_owner(at(counters), (uint32_t)id, at(out));
}

NATIVE(jint, counterDeadline)(HERE, jlong counters, jint id, jlong out) {
    (void)env, (void)its;
    return felter_counter_deadline(at(counters), (uint32_t)id, at(out));
}

NATIVE(jint, counterKey)(HERE, jlong counters, jint id, jlong buffer, jint room) {
    (void)env, (void)its;
    return felter_counter_key(at(counters), (uint32_t)id, at(buffer), (size_t)room);
}

/* Returns the id, or a negated code. */
NATIVE(jint, counterFind)(HERE, jlong counters, jint type_id, jlong registration) {
    (void)env, (void)its;
    uint32_t id = 0;
    int32_t code = felter_counter_find(at(counters), type_id, (uint64_t)registration, &id);
    return code ? -code : (jint)id;
}

NATIVE(jint, countersCloseOwner)(HERE, jlong counters, jlong now, jlong owner, jlong out) {
    (void)env, (void)its;
    return felter_counters_close_owner(at(counters), (uint64_t)now, (uint64_t)owner, at(out));
}

NATIVE(jint, countersJoin)(HERE, jlong counters, jlong reader) {
    (void)env, (void)its;
    return felter_counters_join(at(counters), at(reader));
}

NATIVE(jint, counterState)(HERE, jlong counters, jint id, jlong out) {
    (void)env, (void)its;
    return felter_counter_state(at(counters), (uint32_t)id, at(out));
}

NATIVE(jint, counterTypeId)(HERE, jlong counters, jint id, jlong out) {
    (void)env, (void)its;
    return felter_counter_type_id(at(counters), (uint32_t)id, at(out));
}

/* Returns the length of the label, or a negated code. */
NATIVE(jint, counterLabel)(HERE, jlong counters, jint id, jlong buffer, jint room) {
    (void)env, (void)its;
    size_t len = 0;
    int32_t code = felter_counter_label(at(counters), (uint32_t)id, &len, at(buffer), (size_t)room);
    return code ? -code : (jint)len;
}

NATIVE(jint, countersAvailable)(HERE, jlong counters, jlong now, jlong out) {
    (void)env, (void)its;
    return felter_counters_available(at(counters), (uint64_t)now, at(out));
}

NATIVE(jint, countersReader)(HERE, jlong counters, jlong reader) {
    (void)env, (void)its;
    return felter_counters_reader(at(counters), at(reader));
}

NATIVE(jint, readerValue)(HERE, jlong reader, jint id, jlong out) {
    (void)env, (void)its;
    return felter_reader_value(at(reader), (uint32_t)id, at(out));
}

/* Shared counters */

NATIVE(jint, adderNew)(HERE, jlong adder) {
    (void)env, (void)its;
    return felter_adder_new(at(adder));
}

NATIVE(jint, adderSplit)(HERE, jlong adder, jlong other) {
    (void)env, (void)its;
    return felter_adder_split(at(adder), at(other));
}

NATIVE(jint, adderJoin)(HERE, jlong adder, jlong other) {
    (void)env, (void)its;
    return felter_adder_join(at(adder), at(other));
}

NATIVE(jint, adderAdd)(HERE, jlong adder, jlong delta, jlong out) {
    (void)env, (void)its;
    return felter_adder_add(at(adder), delta, at(out));
}

NATIVE(jint, adderValue)(HERE, jlong adder, jlong out) {
    (void)env, (void)its;
    return felter_adder_value(at(adder), at(out));
}
