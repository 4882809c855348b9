// A goroutine writes 1,000 messages, and this one reads them. Then a broadcast buffer and a counter are used once.
package main

/*
#cgo pkg-config: felter
#include <felter.h>
*/
import "C"

import (
	"fmt"
	"os"
	"runtime"
	"unsafe"
)

const count = 1000

func check(isSo bool, what string) {
	if !isSo {
		fmt.Fprintln(os.Stderr, what)
		os.Exit(1)
	}
}

func must(code C.int32_t) {
	check(code == C.FELTER_OK, C.GoString(C.felter_text(code)))
}

// Writes the numbers, each as one message.
func writeAll(producer *C.felter_producer, done chan<- bool) {
	for i := C.uint32_t(0); i < count; i++ {
		code := C.felter_write(producer, 1, unsafe.Pointer(&i), 4)
		for code == C.FELTER_INSUFFICIENT_CAPACITY || code == C.FELTER_CONTENDED {
			runtime.Gosched()
			code = C.felter_write(producer, 1, unsafe.Pointer(&i), 4)
		}
		must(code)
	}
	done <- true
}

func ring() int {
	var producer, other C.felter_producer
	var consumer C.felter_consumer
	var typeID C.int32_t
	var length C.size_t
	var value C.uint32_t
	var left C.uint64_t
	must(C.felter_many_to_one_new(1024, &producer, &consumer))
	must(C.felter_split(&producer, &other))
	done := make(chan bool)
	go writeAll(&other, done)
	next := 0
	for next < count {
		code := C.felter_read(&consumer, &typeID, &length, unsafe.Pointer(&value), 4)
		if code == C.FELTER_NO_MESSAGE {
			runtime.Gosched()
			continue
		}
		must(code)
		check(typeID == 1 && length == 4 && int(value) == next, "a message is lost")
		next++
	}
	<-done
	must(C.felter_join(&producer, &other))
	must(C.felter_close(&consumer, &producer))
	must(C.felter_finish(&consumer, &left))
	check(left == 0, "a message is left")
	return next
}

func board() {
	var transmitter C.felter_transmitter
	var receiver C.felter_receiver
	var typeID C.int32_t
	var length C.size_t
	var laps, tail C.uint64_t
	text, room := []byte("all"), make([]byte, 32)
	must(C.felter_board_new(256, &transmitter))
	must(C.felter_subscribe(&transmitter, &receiver))
	receive := func() C.int32_t {
		return C.felter_receive(&receiver, &typeID, &length, &laps, unsafe.Pointer(&room[0]), C.size_t(len(room)))
	}
	check(receive() == C.FELTER_NO_MESSAGE, "nothing was transmitted yet")
	must(C.felter_transmit(&transmitter, 3, unsafe.Pointer(&text[0]), C.size_t(len(text))))
	must(receive())
	check(typeID == 3 && string(room[:length]) == "all", "what was transmitted")
	for i := C.int32_t(1); i <= 40; i++ {
		must(C.felter_transmit(&transmitter, i, unsafe.Pointer(&text[0]), C.size_t(len(text))))
	}
	check(receive() == C.FELTER_LAPPED && laps == 1, "the receiver is lapped once")
	must(receive())
	check(typeID == 40, "the last message comes next")
	must(C.felter_board_join(&transmitter, &receiver))
	must(C.felter_board_close(&transmitter, &tail))
	check(tail == 41*16, "all records are of 16 bytes")
}

func counter() {
	var counters C.felter_counters
	var reader C.felter_reader
	var id C.uint32_t
	var before C.int64_t
	label := []byte("a label")
	must(C.felter_counters_new(4, 0, &counters))
	must(C.felter_counters_reader(&counters, &reader))
	must(C.felter_counter_allocate(&counters, 0, 9, nil, 0, unsafe.Pointer(&label[0]), C.size_t(len(label)), 5, &id))
	must(C.felter_counter_set(&counters, id, 40))
	must(C.felter_counter_add(&counters, id, 2, &before))
	seen := make(chan C.int64_t)
	go func() {
		var value C.int64_t
		must(C.felter_reader_value(&reader, id, &value))
		seen <- value
	}()
	check(before == 40 && <-seen == 42, "the value on another thread")
	check(C.felter_reader_value(&reader, 4, &before) == C.FELTER_BAD_ID, "an id that is too great")
	must(C.felter_counters_join(&counters, &reader))
	C.felter_free(&counters.handle)
	check(C.felter_counter_set(&counters, id, 1) == C.FELTER_NO_HANDLE, "a freed handle is empty")
}

func main() {
	board()
	counter()
	fmt.Println(ring(), "messages, in order")
}
