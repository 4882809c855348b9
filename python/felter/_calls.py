"""The calls of libfelter.so, with the types of their arguments."""

# Written by c/bindings from felter.h. To change this file, change felter.h and run c/bindings.
CALLS = """
felter_free *handle
felter_version
felter_capacity *handle *u32 *u32
felter_many_to_one_new_numbered u64 u32 *producer *consumer
felter_many_to_one_new_at_numbered u64 u32 u64 *producer *consumer
felter_one_to_one_new_numbered u64 u32 *producer *consumer
felter_one_to_one_new_at_numbered u64 u32 u64 *producer *consumer
felter_write *producer i32 bytes usize
felter_claim *producer i32 usize *u64
felter_put *producer u64 usize bytes usize
felter_commit *producer u64
felter_abort *producer u64
felter_split *producer *producer
felter_join *producer *producer
felter_positions *producer *u64 *u64
felter_next_id *producer *u64
felter_heartbeat *producer *u64
felter_set_heartbeat *consumer u64
felter_shares *producer *u32
felter_read *consumer *i32 *usize *u8 usize
felter_peek *consumer *i32 *usize *u8 usize
felter_take *consumer
felter_read_batch *consumer u32 *u32 *usize *u8 usize
felter_write_batch *producer bytes usize *u32
felter_close *consumer *producer
felter_finish *consumer *u64
felter_board_new_numbered u64 u32 *transmitter
felter_board_new_at_numbered u64 u32 u64 *transmitter
felter_transmit *transmitter i32 bytes usize
felter_subscribe *transmitter *receiver
felter_receive *receiver *i32 *usize *u64 *u8 usize
felter_lapped_count *receiver *u64
felter_receiver_place *receiver *u64
felter_receiver_lap *receiver *u64 *u64
felter_subscribe_raw *transmitter *raw_receiver
felter_receive_next *raw_receiver *i32 *usize *u64
felter_load_body *raw_receiver *u8 usize
felter_validate *raw_receiver
felter_raw_lapped_count *raw_receiver *u64
felter_raw_receiver_place *raw_receiver *u64
felter_raw_receiver_lap *raw_receiver *u64 *u64
felter_board_join *transmitter *receiver
felter_board_join_raw *transmitter *raw_receiver
felter_board_close *transmitter *u64
felter_counters_new_numbered u64 u32 u32 *counters
felter_counter_allocate *counters u64 i32 bytes usize bytes usize u64 *u32
felter_counter_allocate_owned *counters u64 i32 bytes usize bytes usize u64 u64 *u32
felter_counter_free *counters u64 u32
felter_counter_set *counters u32 i64
felter_counter_add *counters u32 i64 *i64
felter_counter_increment *counters u32 *i64
felter_counter_decrement *counters u32 *i64
felter_counter_get_and_set *counters u32 i64 *i64
felter_counter_value *counters u32 *i64
felter_counter_type_id *counters u32 *i32
felter_counter_registration *counters u32 *u64
felter_counter_owner *counters u32 *u64
felter_counter_propose_max *counters u32 i64 *u32
felter_counter_compare_and_set *counters u32 i64 i64 *u32
felter_counter_state *counters u32 *i32
felter_counter_deadline *counters u32 *u64
felter_counter_label *counters u32 *usize *u8 usize
felter_counter_key *counters u32 *u8 usize
felter_counter_find *counters i32 u64 *u32
felter_counters_count *counters *u32
felter_counters_available *counters u64 *u32
felter_counters_close_owner *counters u64 u64 *u32
felter_counters_reader *counters *reader
felter_reader_value *reader u32 *i64
felter_counters_join *counters *reader
felter_adder_new_numbered u64 *adder
felter_adder_split *adder *adder
felter_adder_join *adder *adder
felter_adder_add *adder i64 *i64
felter_adder_value *adder *i64
felter_adder_shares *adder *u32
felter_conductor_new_numbered u64 u32 u32 u32 u32 *conductor
felter_conductor_client *conductor *client
felter_conductor_work *conductor u64 u32 *u64 *i32
felter_conductor_set_heartbeat *conductor u64
felter_client_heartbeat *client *u64
felter_conductor_find *conductor i32 u64 *u32
felter_conductor_count *conductor *u32
felter_conductor_value *conductor u32 *i64
felter_conductor_type_id *conductor u32 *i32
felter_conductor_registration *conductor u32 *u64
felter_conductor_owner *conductor u32 *u64
felter_conductor_state *conductor u32 *i32
felter_conductor_deadline *conductor u32 *u64
felter_conductor_label *conductor u32 *usize *u8 usize
felter_conductor_key *conductor u32 *u8 usize
felter_conductor_subscribe *conductor *receiver
felter_conductor_reader *conductor *reader
felter_conductor_join *conductor *client
felter_conductor_join_receiver *conductor *receiver
felter_conductor_join_reader *conductor *reader
felter_conductor_finish *conductor *u64 *u64
felter_send_allocate *client i32 bytes usize bytes usize *u64
felter_send_allocate_owned *client i32 u64 bytes usize bytes usize *u64
felter_send_free *client u32 *u64
felter_send_set *client u32 i64 *u64
felter_send_close_owner *client u64 *u64
felter_poll *client u64 *i32 *i64 *u64
felter_recover_words words usize words usize *u64 *i64 *u64 *u32 *usize *u8 usize
felter_ring_memory u32 *usize
felter_board_memory u32 *usize
felter_counters_memory u32 *usize
felter_many_to_one_new_in_numbered u64 memory usize u32 *producer *consumer
felter_one_to_one_new_in_numbered u64 memory usize u32 *producer *consumer
felter_board_new_in_numbered u64 memory usize u32 *transmitter
felter_counters_new_in_numbered u64 memory usize u32 u32 *counters
felter_unmap_at_end memory usize
felter_recover bytes usize *u64 *u32 *usize *u8 usize
felter_finding bytes usize *usize *u8 usize
"""
