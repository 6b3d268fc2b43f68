package fcbench_test

import (
	"fcbench"
	"fmt"
)

type oneValue struct{ value int64 }

func (q *oneValue) Enqueue(value int64) { q.value = value }

// The example of Recorder, for one of whose goroutines this one is taken.
func ExampleRecorder() {
	queue := &oneValue{}
	recorder := &fcbench.Recorder{}
	journals := []*fcbench.Journal{recorder.Journal(), recorder.Journal()} // before the goroutines, one for each
	journal := journals[0]
	journal.Call("enqueue", fcbench.Number(7), func() fcbench.Value { queue.Enqueue(7); return fcbench.Nil })
	text := recorder.History(journals)
	fmt.Print(text)
	// Output:
	// {:process 0, :type :invoke, :f :enqueue, :value 7, :object 0}
	// {:process 0, :type :ok, :f :enqueue, :value 7, :object 0}
}
