// Package tower is the verified thread tower for Go: bounded FIFO buffers between goroutines.
//
//	t, err := tower.Open([]uint8{4}, 2)
//	to, err := t.Take()
//	from, err := t.Take()
//	go func() {
//		defer to.Leave()
//		for k := uint64(1); k < 10; k++ {
//			to.Send(0, k)
//		}
//		to.Close(0)
//	}()
//	for message, err := from.Recv(0); err == nil; message, err = from.Recv(0) {
//		sum += message[0]
//	}
//
// One goroutine at a time uses a caller, in any thread. A call that waits keeps its thread, as each call of C does, and other goroutines run. A wrong call
// returns an Error, and nothing is lost.
//
// The library is embed/out/libtower.a, which embed/build.py makes. CGO_CFLAGS=-I.. and CGO_LDFLAGS=-L.. name another folder.
package tower

/*
#cgo CFLAGS: -I${SRCDIR}/../out
#cgo LDFLAGS: -L${SRCDIR}/../out -l:libtower.a -lpthread
#include "tower.h"
*/
import "C"

import (
	"sync"
	"unsafe"
)

// An Error is a status of the C library: why a call did nothing.
type Error int

// The statuses that a program in Go can get.
const (
	NoMemory    Error = C.TOWER_NO_MEMORY
	NoThread    Error = C.TOWER_NO_THREAD
	Closed      Error = C.TOWER_CLOSED
	BadBuffer   Error = C.TOWER_BAD_BUFFER
	NoWords     Error = C.TOWER_NO_WORDS
	TooLong     Error = C.TOWER_TOO_LONG
	BadCallers  Error = C.TOWER_BAD_CALLERS
	BadBuffers  Error = C.TOWER_BAD_BUFFERS
	BadCapacity Error = C.TOWER_BAD_CAPACITY
	Busy        Error = C.TOWER_BUSY
	Gone        Error = C.TOWER_GONE
	NoCaller    Error = C.TOWER_NO_CALLER
	NotLeft     Error = C.TOWER_NOT_LEFT
	NoProcessor Error = C.TOWER_NO_PROCESSOR
	Forked      Error = C.TOWER_FORKED
	NotBytes    Error = C.TOWER_NOT_BYTES
)

func (e Error) Error() string { return C.GoString(C.tower_text(C.int(e))) }

// Version is the version of the library.
func Version() string { return C.GoString(C.tower_version()) }

func judged(status C.int) error {
	if status == C.TOWER_OK {
		return nil
	}
	return Error(status)
}

// A Tower is open until Shut returns no error. Each call holds the lock for reading, so that no call reaches a tower that was freed.
type Tower struct {
	lock    sync.RWMutex
	at      *C.tower
	buffers int
}

// A Caller makes one call at a time.
type Caller struct {
	tower *Tower
	at    *C.tower_caller
}

// Open opens a tower with buffers of these capacities.
func Open(capacities []uint8, callers int) (*Tower, error) {
	t := &Tower{buffers: len(capacities)}
	room := append(append([]uint8{}, capacities...), 0)
	err := judged(C.tower_open(&t.at, (*C.uint8_t)(&room[0]), C.size_t(len(capacities)), C.size_t(callers)))
	if err != nil {
		return nil, err
	}
	return t, nil
}

// A call of a tower that was shut is an error.
func (t *Tower) called(call func() C.int) error {
	t.lock.RLock()
	defer t.lock.RUnlock()
	if t.at == nil {
		return Gone
	}
	return judged(call())
}

// Take takes a caller that is not taken.
func (t *Tower) Take() (*Caller, error) {
	c := &Caller{tower: t}
	if err := t.called(func() C.int { return C.tower_take(t.at, &c.at) }); err != nil {
		return nil, err
	}
	return c, nil
}

// Left returns how many messages are in a buffer: exact while no call on it is running, else an estimate.
func (t *Tower) Left(buffer int) (int, error) {
	var count C.size_t
	err := t.called(func() C.int { return C.tower_left(t.at, C.size_t(buffer), &count) })
	return int(count), err
}

// Shut shuts the tower once each caller that was taken has left, and returns for each buffer the messages that are left. It waits for no call.
func (t *Tower) Shut() ([][][]uint64, error) {
	if !t.lock.TryLock() {
		return nil, NotLeft
	}
	defer t.lock.Unlock()
	if t.at == nil {
		return nil, Gone
	}
	rest := make([]C.tower_rest, t.buffers+1)
	if err := judged(C.tower_shut(t.at, &rest[0])); err != nil {
		return nil, err
	}
	t.at = nil
	left := make([][][]uint64, t.buffers)
	for b := range left {
		for _, message := range rest[b].messages[:rest[b].count] {
			left[b] = append(left[b], wordsOf(message.words[:message.count]))
		}
	}
	return left, nil
}

func wordsOf(from []C.uint64_t) []uint64 {
	words := make([]uint64, len(from))
	for k, word := range from {
		words[k] = uint64(word)
	}
	return words
}

// Send sends a message of 1 to 8 words, once the buffer has room and it is this caller's turn.
func (c *Caller) Send(buffer int, words ...uint64) error {
	room := append(append([]uint64{}, words...), 0)
	return c.tower.called(func() C.int {
		return C.tower_send(c.at, C.size_t(buffer), (*C.uint64_t)(&room[0]), C.size_t(len(words)))
	})
}

// SendBytes sends 1 to 63 bytes.
func (c *Caller) SendBytes(buffer int, bytes []byte) error {
	room := append(append([]byte{}, bytes...), 0)
	return c.tower.called(func() C.int {
		return C.tower_send_bytes(c.at, C.size_t(buffer), unsafe.Pointer(&room[0]), C.size_t(len(bytes)))
	})
}

// Recv receives the oldest message, once there is one and it is this caller's turn. It returns Closed if the buffer is closed and empty by then.
func (c *Caller) Recv(buffer int) ([]uint64, error) {
	var words [C.TOWER_WORDS]C.uint64_t
	var count C.size_t
	err := c.tower.called(func() C.int { return C.tower_recv(c.at, C.size_t(buffer), &words[0], &count) })
	return wordsOf(words[:count]), err
}

// RecvBytes receives a message of bytes. It returns NotBytes, and the bytes of all its words, if the message was sent as words.
func (c *Caller) RecvBytes(buffer int) ([]byte, error) {
	room := make([]byte, C.TOWER_BYTES_ROOM)
	var count C.size_t
	err := c.tower.called(func() C.int { return C.tower_recv_bytes(c.at, C.size_t(buffer), unsafe.Pointer(&room[0]), &count) })
	return room[:count], err
}

// Close closes a buffer: each later send returns Closed, and so does each later receive once the buffer is empty.
func (c *Caller) Close(buffer int) error {
	return c.tower.called(func() C.int { return C.tower_close(c.at, C.size_t(buffer)) })
}

// Leave ends the caller's calls.
func (c *Caller) Leave() error {
	return c.tower.called(func() C.int { return C.tower_leave(c.at) })
}
