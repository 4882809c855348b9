//! Written by c/bindings from felter.h. To change this file, change felter.h and run c/bindings.
#![allow(dead_code)]
use std::ffi::c_void;
use std::ptr;

/// A handle with its layout in C, which is a struct with one pointer.
#[repr(C)]
pub(crate) struct Raw {
    at: *mut c_void,
}

impl Raw {
    pub(crate) const EMPTY: Raw = Raw { at: ptr::null_mut() };
}

pub(crate) const OK: i32 = 0;

/// Returns what a code means, in words.
pub(crate) fn text(code: i32) -> &'static str {
    match code {
        0 => "no error",
        1 => "the capacity is not a power of two from 128 (of a board 256) to 2^24",
        2 => "the start is not a multiple of the capacity, or is above 2^62",
        3 => "out of memory",
        4 => "the type id is below 1",
        5 => "the message has more than an eighth of the capacity, or the command 520",
        6 => "the record would end above 2^62",
        7 => "the ring is full",
        8 => "another producer was faster",
        9 => "the bytes are not inside the claim",
        10 => "a claim of the producer is open",
        11 => "a producer or a client is still in a handle",
        12 => "one share is left, and is needed",
        13 => "the transmitter overtook the receiver",
        14 => "a receiver is still in a handle",
        15 => "the number of counters is 0 or above 4096",
        16 => "the key has more than 112 bytes",
        17 => "the label has more than 380 bytes",
        18 => "the label has a byte of 128 or more",
        19 => "every counter is in use, or was freed too short a time ago",
        20 => "the id is not below the number of counters",
        21 => "no such counter is in use",
        28 => "the owner is 0, which means none",
        100 => "the handle is empty",
        101 => "the handle is of another kind",
        102 => "the handle that was to be filled is not empty",
        104 => "no claim of this number is open",
        105 => "no message is there yet",
        106 => "the message is longer than the buffer, and stays",
        107 => "the moment is above 2^62",
        108 => "the two handles are of two rings, boards, conductors, sets of counters or shared counters",
        109 => "the message is the reply to another command, or no reply",
        110 => "another handle holds what was to be closed",
        111 => "a pointer is NULL",
        112 => "the memory is too short, does not begin at a multiple of 64 (to recover: of 8), or is in use",
        113 => "the memory is not the image of a ring",
        114 => "the head or the tail is not a multiple of 8",
        115 => "the tail is before the head",
        116 => "the tail is more than the capacity after the head",
        117 => "a header has a length that no record has there",
        118 => "a header has a type id that no record has",
        _ => "unknown code",
    }
}

extern "C" {
    pub(crate) fn felter_free(handle: *mut Raw);
    pub(crate) fn felter_version() -> i32;
    pub(crate) fn felter_capacity(handle: *mut Raw, capacity: *mut u32, longest: *mut u32) -> i32;
    pub(crate) fn felter_many_to_one_new_numbered(
        number: u64,
        capacity: u32,
        producer: *mut Raw,
        consumer: *mut Raw,
    ) -> i32;
    pub(crate) fn felter_many_to_one_new_at_numbered(
        number: u64,
        capacity: u32,
        start: u64,
        producer: *mut Raw,
        consumer: *mut Raw,
    ) -> i32;
    pub(crate) fn felter_one_to_one_new_numbered(
        number: u64,
        capacity: u32,
        producer: *mut Raw,
        consumer: *mut Raw,
    ) -> i32;
    pub(crate) fn felter_one_to_one_new_at_numbered(
        number: u64,
        capacity: u32,
        start: u64,
        producer: *mut Raw,
        consumer: *mut Raw,
    ) -> i32;
    pub(crate) fn felter_write(producer: *mut Raw, type_id: i32, body: *const u8, len: usize) -> i32;
    pub(crate) fn felter_claim(producer: *mut Raw, type_id: i32, len: usize, claim: *mut u64) -> i32;
    pub(crate) fn felter_put(producer: *mut Raw, claim: u64, offset: usize, bytes: *const u8, len: usize) -> i32;
    pub(crate) fn felter_commit(producer: *mut Raw, claim: u64) -> i32;
    pub(crate) fn felter_abort(producer: *mut Raw, claim: u64) -> i32;
    pub(crate) fn felter_split(producer: *mut Raw, other: *mut Raw) -> i32;
    pub(crate) fn felter_join(producer: *mut Raw, other: *mut Raw) -> i32;
    pub(crate) fn felter_positions(producer: *mut Raw, head: *mut u64, tail: *mut u64) -> i32;
    pub(crate) fn felter_next_id(producer: *mut Raw, id: *mut u64) -> i32;
    pub(crate) fn felter_heartbeat(producer: *mut Raw, value: *mut u64) -> i32;
    pub(crate) fn felter_set_heartbeat(consumer: *mut Raw, value: u64) -> i32;
    pub(crate) fn felter_shares(producer: *mut Raw, shares: *mut u32) -> i32;
    pub(crate) fn felter_read(
        consumer: *mut Raw,
        type_id: *mut i32,
        len: *mut usize,
        buffer: *mut u8,
        room: usize,
    ) -> i32;
    pub(crate) fn felter_peek(
        consumer: *mut Raw,
        type_id: *mut i32,
        len: *mut usize,
        buffer: *mut u8,
        room: usize,
    ) -> i32;
    pub(crate) fn felter_take(consumer: *mut Raw) -> i32;
    pub(crate) fn felter_read_batch(
        consumer: *mut Raw,
        limit: u32,
        count: *mut u32,
        used: *mut usize,
        buffer: *mut u8,
        room: usize,
    ) -> i32;
    pub(crate) fn felter_write_batch(producer: *mut Raw, records: *const u8, bytes: usize, written: *mut u32) -> i32;
    pub(crate) fn felter_close(consumer: *mut Raw, producer: *mut Raw) -> i32;
    pub(crate) fn felter_finish(consumer: *mut Raw, left: *mut u64) -> i32;
    pub(crate) fn felter_board_new_numbered(number: u64, capacity: u32, transmitter: *mut Raw) -> i32;
    pub(crate) fn felter_board_new_at_numbered(number: u64, capacity: u32, start: u64, transmitter: *mut Raw) -> i32;
    pub(crate) fn felter_transmit(transmitter: *mut Raw, type_id: i32, body: *const u8, len: usize) -> i32;
    pub(crate) fn felter_subscribe(transmitter: *mut Raw, receiver: *mut Raw) -> i32;
    pub(crate) fn felter_receive(
        receiver: *mut Raw,
        type_id: *mut i32,
        len: *mut usize,
        lapped: *mut u64,
        buffer: *mut u8,
        room: usize,
    ) -> i32;
    pub(crate) fn felter_lapped_count(receiver: *mut Raw, count: *mut u64) -> i32;
    pub(crate) fn felter_receiver_place(receiver: *mut Raw, place: *mut u64) -> i32;
    pub(crate) fn felter_receiver_lap(receiver: *mut Raw, place: *mut u64, intent: *mut u64) -> i32;
    pub(crate) fn felter_subscribe_raw(transmitter: *mut Raw, receiver: *mut Raw) -> i32;
    pub(crate) fn felter_receive_next(receiver: *mut Raw, type_id: *mut i32, len: *mut usize, lapped: *mut u64) -> i32;
    pub(crate) fn felter_load_body(receiver: *mut Raw, buffer: *mut u8, room: usize) -> i32;
    pub(crate) fn felter_validate(receiver: *mut Raw) -> i32;
    pub(crate) fn felter_raw_lapped_count(receiver: *mut Raw, count: *mut u64) -> i32;
    pub(crate) fn felter_raw_receiver_place(receiver: *mut Raw, place: *mut u64) -> i32;
    pub(crate) fn felter_raw_receiver_lap(receiver: *mut Raw, place: *mut u64, intent: *mut u64) -> i32;
    pub(crate) fn felter_board_join(transmitter: *mut Raw, receiver: *mut Raw) -> i32;
    pub(crate) fn felter_board_join_raw(transmitter: *mut Raw, receiver: *mut Raw) -> i32;
    pub(crate) fn felter_board_close(transmitter: *mut Raw, tail: *mut u64) -> i32;
    pub(crate) fn felter_counters_new_numbered(number: u64, count: u32, reuse_ms: u32, counters: *mut Raw) -> i32;
    pub(crate) fn felter_counter_allocate(
        counters: *mut Raw,
        now: u64,
        type_id: i32,
        key: *const u8,
        key_len: usize,
        label: *const u8,
        label_len: usize,
        registration: u64,
        id: *mut u32,
    ) -> i32;
    pub(crate) fn felter_counter_allocate_owned(
        counters: *mut Raw,
        now: u64,
        type_id: i32,
        key: *const u8,
        key_len: usize,
        label: *const u8,
        label_len: usize,
        registration: u64,
        owner: u64,
        id: *mut u32,
    ) -> i32;
    pub(crate) fn felter_counter_free(counters: *mut Raw, now: u64, id: u32) -> i32;
    pub(crate) fn felter_counter_set(counters: *mut Raw, id: u32, value: i64) -> i32;
    pub(crate) fn felter_counter_add(counters: *mut Raw, id: u32, delta: i64, before: *mut i64) -> i32;
    pub(crate) fn felter_counter_increment(counters: *mut Raw, id: u32, before: *mut i64) -> i32;
    pub(crate) fn felter_counter_decrement(counters: *mut Raw, id: u32, before: *mut i64) -> i32;
    pub(crate) fn felter_counter_get_and_set(counters: *mut Raw, id: u32, value: i64, before: *mut i64) -> i32;
    pub(crate) fn felter_counter_value(counters: *mut Raw, id: u32, value: *mut i64) -> i32;
    pub(crate) fn felter_counter_type_id(counters: *mut Raw, id: u32, type_id: *mut i32) -> i32;
    pub(crate) fn felter_counter_registration(counters: *mut Raw, id: u32, registration: *mut u64) -> i32;
    pub(crate) fn felter_counter_owner(counters: *mut Raw, id: u32, owner: *mut u64) -> i32;
    pub(crate) fn felter_counter_propose_max(counters: *mut Raw, id: u32, value: i64, raised: *mut u32) -> i32;
    pub(crate) fn felter_counter_compare_and_set(
        counters: *mut Raw,
        id: u32,
        expected: i64,
        value: i64,
        was_set: *mut u32,
    ) -> i32;
    pub(crate) fn felter_counter_state(counters: *mut Raw, id: u32, state: *mut i32) -> i32;
    pub(crate) fn felter_counter_deadline(counters: *mut Raw, id: u32, deadline: *mut u64) -> i32;
    pub(crate) fn felter_counter_label(
        counters: *mut Raw,
        id: u32,
        len: *mut usize,
        buffer: *mut u8,
        room: usize,
    ) -> i32;
    pub(crate) fn felter_counter_key(counters: *mut Raw, id: u32, buffer: *mut u8, room: usize) -> i32;
    pub(crate) fn felter_counter_find(counters: *mut Raw, type_id: i32, registration: u64, id: *mut u32) -> i32;
    pub(crate) fn felter_counters_count(counters: *mut Raw, count: *mut u32) -> i32;
    pub(crate) fn felter_counters_available(counters: *mut Raw, now: u64, available: *mut u32) -> i32;
    pub(crate) fn felter_counters_close_owner(counters: *mut Raw, now: u64, owner: u64, freed: *mut u32) -> i32;
    pub(crate) fn felter_counters_reader(counters: *mut Raw, reader: *mut Raw) -> i32;
    pub(crate) fn felter_reader_value(reader: *mut Raw, id: u32, value: *mut i64) -> i32;
    pub(crate) fn felter_counters_join(counters: *mut Raw, reader: *mut Raw) -> i32;
    pub(crate) fn felter_adder_new_numbered(number: u64, adder: *mut Raw) -> i32;
    pub(crate) fn felter_adder_split(adder: *mut Raw, other: *mut Raw) -> i32;
    pub(crate) fn felter_adder_join(adder: *mut Raw, other: *mut Raw) -> i32;
    pub(crate) fn felter_adder_add(adder: *mut Raw, delta: i64, before: *mut i64) -> i32;
    pub(crate) fn felter_adder_value(adder: *mut Raw, value: *mut i64) -> i32;
    pub(crate) fn felter_adder_shares(adder: *mut Raw, shares: *mut u32) -> i32;
    pub(crate) fn felter_conductor_new_numbered(
        number: u64,
        capacity: u32,
        replies: u32,
        counters: u32,
        reuse_ms: u32,
        conductor: *mut Raw,
    ) -> i32;
    pub(crate) fn felter_conductor_client(conductor: *mut Raw, client: *mut Raw) -> i32;
    pub(crate) fn felter_conductor_work(
        conductor: *mut Raw,
        now: u64,
        limit: u32,
        messages: *mut u64,
        stopped: *mut i32,
    ) -> i32;
    pub(crate) fn felter_conductor_set_heartbeat(conductor: *mut Raw, value: u64) -> i32;
    pub(crate) fn felter_client_heartbeat(client: *mut Raw, value: *mut u64) -> i32;
    pub(crate) fn felter_conductor_find(conductor: *mut Raw, type_id: i32, registration: u64, id: *mut u32) -> i32;
    pub(crate) fn felter_conductor_count(conductor: *mut Raw, count: *mut u32) -> i32;
    pub(crate) fn felter_conductor_value(conductor: *mut Raw, id: u32, value: *mut i64) -> i32;
    pub(crate) fn felter_conductor_type_id(conductor: *mut Raw, id: u32, type_id: *mut i32) -> i32;
    pub(crate) fn felter_conductor_registration(conductor: *mut Raw, id: u32, registration: *mut u64) -> i32;
    pub(crate) fn felter_conductor_owner(conductor: *mut Raw, id: u32, owner: *mut u64) -> i32;
    pub(crate) fn felter_conductor_state(conductor: *mut Raw, id: u32, state: *mut i32) -> i32;
    pub(crate) fn felter_conductor_deadline(conductor: *mut Raw, id: u32, deadline: *mut u64) -> i32;
    pub(crate) fn felter_conductor_label(
        conductor: *mut Raw,
        id: u32,
        len: *mut usize,
        buffer: *mut u8,
        room: usize,
    ) -> i32;
    pub(crate) fn felter_conductor_key(conductor: *mut Raw, id: u32, buffer: *mut u8, room: usize) -> i32;
    pub(crate) fn felter_conductor_subscribe(conductor: *mut Raw, receiver: *mut Raw) -> i32;
    pub(crate) fn felter_conductor_reader(conductor: *mut Raw, reader: *mut Raw) -> i32;
    pub(crate) fn felter_conductor_join(conductor: *mut Raw, client: *mut Raw) -> i32;
    pub(crate) fn felter_conductor_join_receiver(conductor: *mut Raw, receiver: *mut Raw) -> i32;
    pub(crate) fn felter_conductor_join_reader(conductor: *mut Raw, reader: *mut Raw) -> i32;
    pub(crate) fn felter_conductor_finish(conductor: *mut Raw, received: *mut u64, left: *mut u64) -> i32;
    pub(crate) fn felter_send_allocate(
        client: *mut Raw,
        type_id: i32,
        key: *const u8,
        key_len: usize,
        label: *const u8,
        label_len: usize,
        id: *mut u64,
    ) -> i32;
    pub(crate) fn felter_send_allocate_owned(
        client: *mut Raw,
        type_id: i32,
        owner: u64,
        key: *const u8,
        key_len: usize,
        label: *const u8,
        label_len: usize,
        id: *mut u64,
    ) -> i32;
    pub(crate) fn felter_send_free(client: *mut Raw, counter: u32, id: *mut u64) -> i32;
    pub(crate) fn felter_send_set(client: *mut Raw, counter: u32, value: i64, id: *mut u64) -> i32;
    pub(crate) fn felter_send_close_owner(client: *mut Raw, owner: u64, id: *mut u64) -> i32;
    pub(crate) fn felter_poll(
        client: *mut Raw,
        correlation: u64,
        kind: *mut i32,
        number: *mut i64,
        lapped: *mut u64,
    ) -> i32;
    pub(crate) fn felter_recover_words(
        words: *const u64,
        word_count: usize,
        slots: *const u64,
        slot_count: usize,
        place: *mut u64,
        found: *mut i64,
        open_claims: *mut u64,
        count: *mut u32,
        used: *mut usize,
        buffer: *mut u8,
        room: usize,
    ) -> i32;
    pub(crate) fn felter_ring_memory(capacity: u32, length: *mut usize) -> i32;
    pub(crate) fn felter_board_memory(capacity: u32, length: *mut usize) -> i32;
    pub(crate) fn felter_counters_memory(count: u32, length: *mut usize) -> i32;
    pub(crate) fn felter_many_to_one_new_in_numbered(
        number: u64,
        memory: *mut u8,
        length: usize,
        capacity: u32,
        producer: *mut Raw,
        consumer: *mut Raw,
    ) -> i32;
    pub(crate) fn felter_one_to_one_new_in_numbered(
        number: u64,
        memory: *mut u8,
        length: usize,
        capacity: u32,
        producer: *mut Raw,
        consumer: *mut Raw,
    ) -> i32;
    pub(crate) fn felter_board_new_in_numbered(
        number: u64,
        memory: *mut u8,
        length: usize,
        capacity: u32,
        transmitter: *mut Raw,
    ) -> i32;
    pub(crate) fn felter_counters_new_in_numbered(
        number: u64,
        memory: *mut u8,
        length: usize,
        count: u32,
        reuse_ms: u32,
        counters: *mut Raw,
    ) -> i32;
    pub(crate) fn felter_unmap_at_end(memory: *mut u8, length: usize) -> i32;
    pub(crate) fn felter_recover(
        image: *const u8,
        length: usize,
        open_claims: *mut u64,
        count: *mut u32,
        used: *mut usize,
        buffer: *mut u8,
        room: usize,
    ) -> i32;
    pub(crate) fn felter_finding(image: *const u8, length: usize, len: *mut usize, text: *mut u8, room: usize) -> i32;
}
