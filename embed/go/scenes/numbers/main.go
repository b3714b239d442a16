// Numbers tries the package: producers and a consumer in goroutines, wrong calls with their errors, bytes, what is left, and a caller that goes from goroutine
// to goroutine. The last line counts; the status is 1 if a row differs.
package main

import (
	"fmt"
	"os"
	"reflect"
	"runtime"
	"sync"
	"time"

	"tower"
)

const each = 600

var (
	lock         sync.Mutex
	rows, faults int
)

func same(name string, seen, wanted interface{}) {
	lock.Lock()
	defer lock.Unlock()
	rows++
	if !reflect.DeepEqual(seen, wanted) {
		faults++
		fmt.Printf("NOT SO: %s: %v, and wanted is %v\n", name, seen, wanted)
	}
}

func opened(capacities []uint8, callers int) (*tower.Tower, []*tower.Caller) {
	t, err := tower.Open(capacities, callers)
	same("open", err, nil)
	taken := make([]*tower.Caller, callers)
	for k := range taken {
		taken[k], err = t.Take()
		same("take", err, nil)
	}
	return t, taken
}

func produce(c *tower.Caller, me uint64, done *sync.WaitGroup) {
	defer done.Done()
	for k := uint64(0); k < each; k++ {
		if err := c.Send(0, me, k); err != nil {
			same("send", err, nil)
		}
		if k%64 == 0 {
			runtime.Gosched()
		}
	}
	same("leave", c.Leave(), nil)
}

// Each producer's numbers are received in order. The goroutines move between threads from call to call.
func produced() {
	t, callers := opened([]uint8{4}, 4)
	var done sync.WaitGroup
	done.Add(2)
	for me := uint64(0); me < 2; me++ {
		go produce(callers[me], me, &done)
	}
	go func() {
		done.Wait()
		same("close", callers[2].Close(0), nil)
		same("leave", callers[2].Leave(), nil)
	}()
	var next [2]uint64
	message, err := callers[3].Recv(0)
	for ; err == nil; message, err = callers[3].Recv(0) {
		same("a number", message[1], next[message[0]])
		next[message[0]]++
	}
	same("the end", err, tower.Closed)
	same("all numbers", next, [2]uint64{each, each})
	same("leave", callers[3].Leave(), nil)
	shut(t, [][][]uint64{nil})
}

func shut(t *tower.Tower, wanted [][][]uint64) {
	left, err := t.Shut()
	for deadline := time.Now().Add(10 * time.Second); err == tower.NotLeft && time.Now().Before(deadline); left, err = t.Shut() {
		time.Sleep(time.Millisecond) // the last to leave may not have left yet
	}
	same("shut", err, nil)
	same("rest", left, wanted)
}

func wrongCalls() {
	t, callers := opened([]uint8{3, 1}, 1)
	c := callers[0]
	_, err := t.Take()
	same("all are taken", err, tower.NoCaller)
	for buffer, wanted := range map[int]error{2: tower.BadBuffer, -1: tower.BadBuffer, 256: tower.BadBuffer, 1 << 32: tower.BadBuffer} {
		same("send to a buffer that is not there", c.Send(buffer, 1), wanted)
	}
	same("no words", c.Send(0), tower.NoWords)
	same("nine words", c.Send(0, 1, 2, 3, 4, 5, 6, 7, 8, 9), tower.TooLong)
	same("no bytes", c.SendBytes(0, nil), tower.NoWords)
	same("64 bytes", c.SendBytes(0, make([]byte, 64)), tower.TooLong)
	same("send", c.Send(0, 5, 6), nil)
	same("send bytes", c.SendBytes(0, []byte("eleven here")), nil)
	same("send", c.Send(0, 7), nil)
	left, err := t.Left(0)
	same("left", []interface{}{left, err}, []interface{}{3, nil})
	bytes, err := c.RecvBytes(0)
	same("words where bytes are asked for", []interface{}{len(bytes), err}, []interface{}{16, tower.NotBytes})
	bytes, err = c.RecvBytes(0)
	same("bytes", []interface{}{string(bytes), err}, []interface{}{"eleven here", nil})
	_, err = t.Shut()
	same("a caller has not left", err, tower.NotLeft)
	same("leave", c.Leave(), nil)
	same("leave again", c.Leave(), tower.Gone)
	shut(t, [][][]uint64{{{7}}, nil})
	same("after the end", c.Send(0, 1), tower.Gone)
	_, err = t.Take()
	same("take after the end", err, tower.Gone)
	same("an error says what it is", err.Error() != "" && err.Error() != "unknown status", true)
}

func openings() {
	for _, it := range []struct {
		capacities []uint8
		callers    int
		wanted     error
	}{{[]uint8{1}, 0, tower.BadCallers}, {[]uint8{1}, 17, tower.BadCallers}, {[]uint8{1}, -1, tower.BadCallers}, {make([]uint8, 17), 1, tower.BadBuffers},
		{[]uint8{0}, 1, tower.BadCapacity}, {[]uint8{33}, 1, tower.BadCapacity}} {
		_, err := tower.Open(it.capacities, it.callers)
		same("open", err, it.wanted)
	}
}

// A receive that waits keeps no other goroutine from running, and Shut does not wait for it.
func waits() {
	t, callers := opened([]uint8{1}, 2)
	got := make(chan []uint64)
	go func() {
		message, err := callers[0].Recv(0)
		for err == tower.Busy { // the other goroutine is in its call
			message, err = callers[0].Recv(0)
		}
		same("a receive that waits", err, nil)
		same("leave", callers[0].Leave(), nil)
		got <- message
	}()
	for callers[0].Close(9) != tower.Busy {
		runtime.Gosched()
	}
	_, err := t.Shut()
	same("shut while a call waits", err, tower.NotLeft)
	same("send", callers[1].Send(0, 8), nil)
	same("the message", <-got, []uint64{8})
	same("leave", callers[1].Leave(), nil)
	shut(t, [][][]uint64{nil})
}

// A goroutine hands its caller to the next.
func movesOn() {
	t, callers := opened([]uint8{32}, 1)
	passed := make(chan *tower.Caller, 1)
	passed <- callers[0]
	var done sync.WaitGroup
	for k := uint64(0); k < 30; k++ {
		done.Add(1)
		go func(k uint64) {
			defer done.Done()
			c := <-passed
			same("send", c.Send(0, k), nil)
			passed <- c
		}(k)
	}
	done.Wait()
	left, err := t.Left(0)
	same("left", []interface{}{left, err}, []interface{}{30, nil})
	same("leave", callers[0].Leave(), nil)
	rest, err := t.Shut()
	same("all of it is left", []interface{}{len(rest[0]), err}, []interface{}{30, nil})
}

func main() {
	for _, scene := range []func(){produced, wrongCalls, openings, waits, movesOn} {
		scene()
	}
	fmt.Printf("go: %d passed, %d failed\n", rows-faults, faults)
	if faults != 0 {
		os.Exit(1)
	}
}
