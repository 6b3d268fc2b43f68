package fcbench

import (
	"errors"
	"os"
	"runtime"
	"strconv"
	"strings"
	"sync"
	"sync/atomic"
	"testing"
	"time"
)

const (
	clients        = 4
	calls          = 50
	mostOperations = 5
	// Of the calls of a right queue more overlap another one: all but some of the goroutine that ends last.
	leastOverlap = 0.5
	// A goroutine waits no longer for others: only if one of them does not end.
	patience = time.Minute
)

// The dequeue of a queue reads the index of the head and then moves it.
type queue struct {
	hasRace                      bool
	values                       [clients * calls]int64
	head, tail, waiting, working int64
	deadline                     time.Time
	enqueuing, dequeuing         sync.Mutex
}

// In a right queue each call waits at first, so that calls overlap on each machine.
func (q *queue) enqueue(value int64) {
	if !q.hasRace {
		q.waitForAnother()
	}
	q.enqueuing.Lock()
	defer q.enqueuing.Unlock()
	atomic.StoreInt64(&q.values[atomic.LoadInt64(&q.tail)], value)
	atomic.AddInt64(&q.tail, 1)
}

// Waits until another goroutine is here too, or no other one is at work. While one waits, the others need not, so they go on
// and end.
func (q *queue) waitForAnother() {
	atomic.AddInt64(&q.waiting, 1)
	for atomic.LoadInt64(&q.waiting) < 2 && atomic.LoadInt64(&q.working) > 1 && time.Now().Before(q.deadline) {
		runtime.Gosched()
	}
	atomic.AddInt64(&q.waiting, -1)
}

func (q *queue) dequeue() Value {
	if q.hasRace {
		return q.take()
	}
	q.waitForAnother()
	q.dequeuing.Lock()
	defer q.dequeuing.Unlock()
	return q.take()
}

// The race: another goroutine may come in between and take the same value. One waits for it, so each run has the fault: the
// first two that come in take the same.
func (q *queue) take() Value {
	head := atomic.LoadInt64(&q.head)
	if head == atomic.LoadInt64(&q.tail) {
		return Nil
	}
	if q.hasRace {
		q.waitForAnother()
	}
	atomic.StoreInt64(&q.head, head+1)
	return Number(atomic.LoadInt64(&q.values[head]))
}

func work(q *queue, journal *Journal, client int64) {
	defer atomic.AddInt64(&q.working, -1)
	for i := int64(0); i < calls; i++ {
		value := client*calls + i
		if i%2 == 0 {
			journal.Call("enqueue", Number(value), func() Value { q.enqueue(value); return Nil })
		} else {
			journal.Call("dequeue", Nil, q.dequeue)
		}
	}
}

func record(hasRace bool) (history string, share float64) {
	q, recorder := &queue{hasRace: hasRace, working: clients, deadline: time.Now().Add(patience)}, &Recorder{}
	var journals []*Journal
	var all sync.WaitGroup
	for client := int64(0); client < clients; client++ {
		journals = append(journals, recorder.Journal())
	}
	for client := range journals {
		all.Add(1)
		go func(client int) {
			defer all.Done()
			work(q, journals[client], int64(client))
		}(client)
	}
	all.Wait()
	history = recorder.History(journals)
	share, _ = recorder.Overlap(journals)
	return history, share
}

func runs() int {
	if count, err := strconv.Atoi(os.Getenv("FCBENCH_RUNS")); err == nil {
		return count
	}
	return 100
}

func TestRightQueue(t *testing.T) {
	for run := 0; run < runs(); run++ {
		history, share := record(false)
		if answer := Judge(history); answer.Verdict != Yes {
			t.Fatal(answer)
		}
		if share < leastOverlap {
			t.Fatal("the calls overlap too little: ", share)
		}
	}
}

func TestRace(t *testing.T) {
	for run := 0; run < runs(); run++ {
		history, _ := record(true)
		answer := Judge(history)
		operations := strings.Count(answer.Lines, "\n; event")
		if answer.Verdict != No || operations < 1 || operations > mostOperations {
			t.Fatal(answer)
		}
	}
}

// A call that did not return ends with :info, and its goroutine goes on as a new process.
func TestPendingAndFailedCalls(t *testing.T) {
	recorder := &Recorder{}
	journal := recorder.Journal()
	func() {
		defer func() { _ = recover() }()
		journal.CallOn(3, "write", Number(7), func() Value { panic("timeout") })
	}()
	_, err := journal.TryCallOn(3, "cas", Pair(7, 8), func() (Value, error) { return Nil, errors.New("refused") })
	wanted := `{:process 0, :type :invoke, :f :write, :value 7, :object 3}
{:process 0, :type :info, :f :write, :value 7, :object 3}
{:process 1, :type :invoke, :f :cas, :value [7 8], :object 3}
{:process 1, :type :fail, :f :cas, :value nil, :object 3}
`
	if text := recorder.History([]*Journal{journal}); err == nil || text != wanted {
		t.Fatal(text)
	}
}

func messageOf(act func()) (message interface{}) {
	defer func() { message = recover() }()
	act()
	return nil
}

func wantMessage(t *testing.T, wanted string, act func()) {
	t.Helper()
	if message := messageOf(act); message != wanted {
		t.Fatalf("wanted %q, and not %v", wanted, message)
	}
}

// Without the calls of the lost journal the history says that 7 is dequeued and was never enqueued.
func TestJournalThatIsNotHandedIn(t *testing.T) {
	recorder := &Recorder{}
	lost, kept := recorder.Journal(), recorder.Journal()
	lost.Call("enqueue", Number(7), func() Value { return Nil })
	lost.Invoke(0, "enqueue", Number(8))
	kept.Call("dequeue", Nil, func() Value { return Number(7) })
	wantMessage(t, "3 events are missing: a journal is missing, or this recorder has already made a history", func() { recorder.History([]*Journal{kept}) })
	wantMessage(t, "a journal was handed in twice", func() { recorder.History([]*Journal{kept, kept}) })
	wantMessage(t, "a journal of another recorder was handed in", func() { (&Recorder{}).History([]*Journal{kept}) })
	if answer := Judge(recorder.History([]*Journal{kept, lost})); !answer.IsYes() {
		t.Fatal(answer)
	}
}

// The reply of a function that puts a value in is its argument, even if the call returns nothing.
func TestRepliesOfCallsThatGiveNothing(t *testing.T) {
	recorder := &Recorder{}
	journal := recorder.Journal()
	for object, function := range []string{"enqueue", "push", "insert", "write"} {
		journal.CallOn(uint16(object), function, Number(7), func() Value { return Nil })
		_, _ = journal.TryCallOn(uint16(object), function, Number(8), func() (none Value, err error) { return })
	}
	journal.CallOn(4, "acquire", Nil, func() Value { return Nil })
	journal.CallOn(4, "release", Nil, func() (none Value) { return })
	text := recorder.History([]*Journal{journal})
	if answer := Judge(text); !strings.HasPrefix(answer.Lines, "yes: 10 operations") || strings.Count(text, ":value nil") != 4 {
		t.Fatal(answer, text)
	}
}

// A reply that is not the argument, as a length, is refused.
func TestReplyThatIsNotTheArgument(t *testing.T) {
	recorder := &Recorder{}
	journal := recorder.Journal()
	journal.Call("enqueue", Number(7), func() Value { return Nil })
	journal.Call("enqueue", Number(8), func() Value { return Number(2) })
	wanted := "enqueue replied 2 and not its argument 8: let the call give Nil"
	wantMessage(t, wanted, func() { recorder.History([]*Journal{journal}) })
}

// Only a reply that says so says that nothing was there.
func TestReplyThatIsNotGiven(t *testing.T) {
	for function, argument := range map[string]Value{"put": Pair(1, 2), "del": Number(1), "get": Number(1), "dequeue": Nil, "cas": Pair(1, 2)} {
		recorder := &Recorder{}
		journal := recorder.Journal()
		journal.Call(function, argument, func() (none Value) { return })
		wanted := function + " was given no reply: Nil says that nothing was there"
		wantMessage(t, wanted, func() { recorder.History([]*Journal{journal}) })
	}
}

// Put-if-absent twice on one key, and a fetch-and-add.
func TestCallThatIsKnownWhenItReturned(t *testing.T) {
	recorder := &Recorder{NoYields: true}
	journal := recorder.Journal()
	journal.Invoke(0, "put", Pair(1, 5))
	journal.ReturnedAs("put", Pair(1, 5), Nil)
	journal.Invoke(0, "put", Pair(1, 6))
	journal.ReturnedAs("get", Number(1), Number(5))
	journal.CallOn(1, "write", Number(3), func() Value { return Nil })
	journal.Invoke(1, "cas", Pair(0, 1))
	journal.ReturnedAs("cas", Pair(3, 4), Pair(3, 4))
	wanted := `{:process 0, :type :invoke, :f :put, :value [1 5], :object 0}
{:process 0, :type :ok, :f :put, :value nil, :object 0}
{:process 0, :type :invoke, :f :get, :value 1, :object 0}
{:process 0, :type :ok, :f :get, :value 5, :object 0}
{:process 0, :type :invoke, :f :write, :value 3, :object 1}
{:process 0, :type :ok, :f :write, :value 3, :object 1}
{:process 0, :type :invoke, :f :cas, :value [3 4], :object 1}
{:process 0, :type :ok, :f :cas, :value [3 4], :object 1}
`
	text := recorder.History([]*Journal{journal})
	if answer := Judge(text); text != wanted || !answer.IsYes() {
		t.Fatal(text, answer)
	}
}

// Of five calls the second and third overlap, and the fourth and the one that is pending.
func TestOverlap(t *testing.T) {
	recorder := &Recorder{}
	one, other := recorder.Journal(), recorder.Journal()
	one.Call("enqueue", Number(1), func() Value { return Nil })
	one.Invoke(0, "enqueue", Number(2))
	other.Call("enqueue", Number(3), func() Value { one.Returned(Nil); return Nil })
	one.Invoke(0, "enqueue", Number(4))
	other.Invoke(0, "enqueue", Number(5))
	if share, atOnce := recorder.Overlap([]*Journal{one, other}); share != 0.8 || atOnce != 2 {
		t.Fatal(share, atOnce)
	}
}

// A call in steps: one that timed out, one that failed, and one that returned.
func TestSteps(t *testing.T) {
	recorder := &Recorder{}
	journal := recorder.Journal()
	journal.Invoke(0, "enqueue", Number(7))
	journal.GaveUp()
	_, err := journal.TryCall("enqueue", Number(8), func() (Value, error) { return Nil, errors.New("refused") })
	journal.Invoke(0, "enqueue", Number(8))
	journal.Failed()
	journal.Invoke(0, "dequeue", Nil)
	journal.Returned(Number(7))
	wantMessage(t, "no call is outstanding", func() { journal.Returned(Number(7)) })
	journal.Invoke(0, "enqueue", Number(9))
	wanted := `{:process 0, :type :invoke, :f :enqueue, :value 7, :object 0}
{:process 0, :type :info, :f :enqueue, :value 7, :object 0}
{:process 1, :type :invoke, :f :enqueue, :value 8, :object 0}
{:process 1, :type :fail, :f :enqueue, :value nil, :object 0}
{:process 1, :type :invoke, :f :enqueue, :value 8, :object 0}
{:process 1, :type :fail, :f :enqueue, :value nil, :object 0}
{:process 1, :type :invoke, :f :dequeue, :value nil, :object 0}
{:process 1, :type :ok, :f :dequeue, :value 7, :object 0}
{:process 1, :type :invoke, :f :enqueue, :value 9, :object 0}
{:process 1, :type :info, :f :enqueue, :value 9, :object 0}
`
	text := recorder.History([]*Journal{journal})
	if err == nil || text != wanted {
		t.Fatal(text)
	}
	if answer := Judge(text); !answer.IsYes() {
		t.Fatal(answer)
	}
}

// A set, a counter, a lock, and a map that does not tell what was there.
func TestSetsCountersAndLocks(t *testing.T) {
	recorder := &Recorder{}
	journal := recorder.Journal()
	for _, call := range []struct {
		function        string
		argument, reply Value
		object          uint16
	}{
		{"add", Number(7), Truth(true), 0},
		{"add", Number(7), Truth(false), 0},
		{"fetch-add", Number(2), Number(0), 1},
		{"get-count", Nil, Number(2), 1},
		{"lock", Number(1), Nil, 2},
		{"unlock", Number(1), Nil, 2},
		{"assoc", Pair(1, 10), Nil, 3},
		{"replace", Triple(1, 10, 11), True, 3},
	} {
		journal.Invoke(call.object, call.function, call.argument)
		journal.Returned(call.reply)
	}
	text := recorder.History([]*Journal{journal})
	if !strings.Contains(text, ":f :replace, :value [1 10 11], :object 3") {
		t.Fatal(text)
	}
	if answer := Judge(text); !answer.IsYes() {
		t.Fatal(answer)
	}
}
