package fcbench

import (
	"fmt"
	"runtime"
	"sort"
	"strings"
	"sync/atomic"
)

// Recorder records the calls of goroutines on concurrent objects, as a history for fcbench. One recorder makes one history.
//
//	recorder := &fcbench.Recorder{}
//	journals := []*fcbench.Journal{recorder.Journal(), recorder.Journal()} // before the goroutines, one for each
//	// in a goroutine, which has its journal:
//	journal.Call("enqueue", fcbench.Number(7), func() fcbench.Value { queue.Enqueue(7); return fcbench.Nil })
//	// after the goroutines have ended:
//	text := recorder.History(journals)
//
// An atomic counter gives a ticket before each call and one after it. A goroutine writes into its own journal and takes
// no lock. The events in the order of their tickets are the history: if it shows one call returning before another was
// invoked, that is what happened. So a history that is not linearizable shows that the object is not.
//
// A journal that is not handed to History takes its calls with it: History panics then.
//
// Calls that never overlap show no fault. So after one ticket of an invocation in eight the goroutine yields, which leaves room for
// another: NoYields turns this off. Overlap says how much the calls of the journals overlapped.
//
// The reply of enqueue, push, insert and write is their argument: if the call gives Nil, the argument is written. History panics
// if the call returns anything else, such as a length. The reply of cas is its pair if it swapped, else False. That of put and del is
// what was there before, or Nil if nothing was: a store that does not tell it has assoc and dissoc, whose reply is Nil. So is that of
// clear, acquire, release, lock and unlock. That of add, remove, contains, create, put-if-absent and replace is Truth of what the call
// says, and that of fetch-add the number before.
//
// What a call was may be known only when it has returned, as a put-if-absent that gives the value that it found, which is a get then.
// Invoke it as put-if-absent, since if it times out, it may have put, and end it with ReturnedAs("put-if-absent", Pair(k, v), True) or
// ReturnedAs("get", Number(k), Number(found)).
//
// An empty queue is a reply, not a failure: if Dequeue gives (int64, bool), give Nil if the bool is false, and use Call.
//
// A call that does not return, such as one that panics or times out, may have happened: its operation ends with :info, and the
// journal goes on as a new process, as Jepsen's threads do. Use Failed and an error of TryCall only if the call definitely did not
// happen: if a call that timed out is written as failed, a correct queue gets a no.
type Recorder struct {
	// NoYields says that no goroutine yields between the ticket of an invocation and the call.
	NoYields           bool
	tickets, processes int64
}

// A goroutine yields after one ticket of an invocation in this many.
const callsToAYield = 8

type shape uint8

const (
	notGiven shape = iota
	isNil
	isFalse
	isTrue
	isNumber
	isPair
	isTriple
)

// Value is an argument or a reply. It is written as text only by History, so that no call takes longer for it. The zero Value is no
// reply: it is enough for functions whose reply is known, as enqueue and acquire.
type Value struct {
	shape                shape
	first, second, third int64
}

var (
	// Nil is nothing, as the argument of dequeue, and its reply if the queue is empty.
	Nil = Value{shape: isNil}
	// False is the reply of a cas that found another value, or of a question that is not so.
	False = Value{shape: isFalse}
	// True is the reply of a question that is so, as of an add.
	True = Value{shape: isTrue}
)

// Truth is the reply of a question, as of contains.
func Truth(isSo bool) Value {
	if isSo {
		return True
	}
	return False
}

// Number is what is enqueued, read, written and so on.
func Number(n int64) Value { return Value{shape: isNumber, first: n} }

// Pair is the argument of put, a key and a value, and that of cas, what is expected and what is new.
func Pair(first, second int64) Value { return Value{isPair, first, second, 0} }

// Triple is the argument of replace: a key, what is expected and what is new.
func Triple(key, expected, new int64) Value { return Value{isTriple, key, expected, new} }

// String is the value as a history has it.
func (v Value) String() string {
	switch v.shape {
	case isFalse:
		return "false"
	case isTrue:
		return "true"
	case isNumber:
		return fmt.Sprint(v.first)
	case isPair:
		return fmt.Sprintf("[%d %d]", v.first, v.second)
	case isTriple:
		return fmt.Sprintf("[%d %d %d]", v.first, v.second, v.third)
	}
	return "nil"
}

type event struct {
	ticket, process int64
	object          uint16
	kind, function  string
	value           Value
}

// Journal is what one goroutine did.
type Journal struct {
	recorder  *Recorder
	process   int64
	isPending bool
	events    []event
}

func (r *Recorder) ticket() int64 { return atomic.AddInt64(&r.tickets, 1) - 1 }

// Journal makes a journal for a goroutine.
func (r *Recorder) Journal() *Journal {
	return &Journal{recorder: r, process: atomic.AddInt64(&r.processes, 1) - 1}
}

// Call makes a call on object 0, and records it: act makes it and gives its reply.
func (j *Journal) Call(function string, argument Value, act func() Value) Value {
	return j.CallOn(0, function, argument, act)
}

// CallOn makes a call on an object, and records it.
func (j *Journal) CallOn(object uint16, function string, argument Value, act func() Value) Value {
	j.Invoke(object, function, argument)
	reply := act()
	j.Returned(reply)
	return reply
}

// TryCall makes a call on object 0 that may fail, and records it. act gives an error only if the call definitely did not happen.
func (j *Journal) TryCall(function string, argument Value, act func() (Value, error)) (Value, error) {
	return j.TryCallOn(0, function, argument, act)
}

// TryCallOn makes a call on an object that may fail, and records it. act gives an error only if the call definitely did not happen.
func (j *Journal) TryCallOn(object uint16, function string, argument Value, act func() (Value, error)) (Value, error) {
	j.Invoke(object, function, argument)
	reply, err := act()
	if err != nil {
		j.Failed()
	} else {
		j.Returned(reply)
	}
	return reply, err
}

// Invoke is called just before a call, if Call does not suit. Then one of Returned, Failed and GaveUp is called; if there is
// none before the next Invoke, it is GaveUp.
func (j *Journal) Invoke(object uint16, function string, argument Value) {
	if j.isPending {
		j.GaveUp()
	}
	// The room is made before the ticket of an invocation is drawn.
	j.events = append(j.events, event{process: j.process, object: object, kind: "invoke", function: function, value: argument})
	j.isPending = true
	ticket := j.recorder.ticket()
	j.events[len(j.events)-1].ticket = ticket
	if !j.recorder.NoYields && mixed(ticket)%callsToAYield == 0 {
		runtime.Gosched()
	}
}

// mixed is a number that looks drawn, for each ticket.
func mixed(ticket int64) uint64 { return uint64(ticket) * 0x9E3779B97F4A7C15 >> 32 }

// Returned is called just after the call returned. It panics if no call is outstanding, as Failed and GaveUp do.
func (j *Journal) Returned(reply Value) {
	j.end("ok", reply)
}

// ReturnedAs is like Returned, if it is known only now what the call was: its invocation is written with this function and argument.
func (j *Journal) ReturnedAs(function string, argument, reply Value) {
	j.end("ok", reply)
	for at := len(j.events) - 2; at < len(j.events); at++ {
		j.events[at].function = function
	}
	j.events[len(j.events)-2].value = argument
}

// Failed is called only if the call definitely did not happen: it is written with :fail. A timeout is GaveUp.
func (j *Journal) Failed() {
	j.end("fail", Nil)
}

// GaveUp is called if the call may have happened, or may still happen, as after a timeout: it is written with :info, and what
// follows is of another process.
func (j *Journal) GaveUp() {
	j.end("info", Nil)
	j.process = atomic.AddInt64(&j.recorder.processes, 1) - 1
}

// end draws the ticket of a return first.
func (j *Journal) end(kind string, reply Value) {
	if !j.isPending {
		panic("no call is outstanding")
	}
	ticket := j.recorder.ticket()
	call := j.events[len(j.events)-1]
	call.ticket, call.kind = ticket, kind
	if kind == "fail" || kind == "ok" && !(reply.isNothing() && isPut(call.function)) {
		call.value = reply
	}
	j.events = append(j.events, call)
	j.isPending = false
}

func (v Value) isNothing() bool { return v.shape == isNil || v.shape == notGiven }

// isPut says whether the reply of a function is its argument.
func isPut(function string) bool {
	return function == "enqueue" || function == "push" || function == "insert" || function == "write"
}

// isSilent says whether the reply of a function is nil.
func isSilent(function string) bool {
	switch function {
	case "acquire", "release", "lock", "unlock", "assoc", "dissoc", "clear":
		return true
	}
	return false
}

// isQuestion says whether the reply of a function is a truth value.
func isQuestion(function string) bool {
	switch function {
	case "add", "remove", "contains", "create", "put-if-absent", "replace":
		return true
	}
	return false
}

// History is the history, after all goroutines have ended: each event at the place of its ticket. It panics if it is not handed
// each journal of this recorder once, also those of a history that it made before: without the calls of one of them a correct
// object could get a no.
func (r *Recorder) History(journals []*Journal) string {
	var events []event
	for _, journal := range journals {
		if journal.recorder != r {
			panic("a journal of another recorder was handed in")
		}
		if journal.isPending {
			journal.GaveUp()
		}
		journal.wantReplies()
		events = append(events, journal.events...)
	}
	sort.Slice(events, func(a, b int) bool { return events[a].ticket < events[b].ticket })
	r.wantEach(events)
	var text strings.Builder
	for _, e := range events {
		fmt.Fprintf(&text, "{:process %d, :type :%s, :f :%s, :value %s, :object %d}\n", e.process, e.kind, e.function, e.value, e.object)
	}
	return text.String()
}

// Overlap says how much the calls of these journals overlapped: the share that overlapped another one, from 0 to 1, and how many were
// outstanding at once at most. If the share is small, the history could hardly have failed.
func (r *Recorder) Overlap(journals []*Journal) (share float64, atOnce int) {
	var events []event
	for _, journal := range journals {
		events = append(events, journal.events...)
	}
	sort.Slice(events, func(a, b int) bool { return events[a].ticket < events[b].ticket })
	calls, outstanding, overlapped := 0, map[int64]int64{}, map[int64]bool{}
	for _, e := range events {
		if e.kind != "invoke" {
			delete(outstanding, e.process)
			continue
		}
		calls++
		outstanding[e.process] = e.ticket
		if len(outstanding) > atOnce {
			atOnce = len(outstanding)
		}
		if len(outstanding) > 1 {
			overlapped[e.ticket] = true
		}
		if len(outstanding) == 2 {
			for _, ticket := range outstanding {
				overlapped[ticket] = true
			}
		}
	}
	if calls > 0 {
		share = float64(len(overlapped)) / float64(calls)
	}
	return share, atOnce
}

// wantReplies panics if the reply of a call is missing, or is to be its argument and is not.
func (j *Journal) wantReplies() {
	for at := 1; at < len(j.events); at++ {
		call, end := j.events[at-1], j.events[at]
		if end.kind == "ok" && isQuestion(end.function) && end.value != True && end.value != False {
			panic(fmt.Sprintf("%s replied %s, and neither true nor false", end.function, end.value))
		}
		if end.kind == "ok" && end.value.shape == notGiven && !isSilent(end.function) {
			panic(fmt.Sprintf("%s was given no reply: Nil says that nothing was there", end.function))
		}
		if end.kind == "ok" && isPut(end.function) && end.value != call.value {
			panic(fmt.Sprintf("%s replied %s and not its argument %s: let the call give Nil", end.function, end.value, call.value))
		}
	}
}

// wantEach panics if the tickets of these events are not all tickets.
func (r *Recorder) wantEach(events []event) {
	for at := range events {
		if at > 0 && events[at].ticket == events[at-1].ticket {
			panic("a journal was handed in twice")
		}
	}
	if missing := atomic.LoadInt64(&r.tickets) - int64(len(events)); missing != 0 {
		panic(fmt.Sprintf("%d events are missing: a journal is missing, or this recorder has already made a history", missing))
	}
}
