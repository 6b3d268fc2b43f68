// Package fcbench is the proved judge of fcbench, for tests of concurrent objects, and a recorder of what goroutines do.
//
// cgo finds fcbench.h and libfcbench.a by CGO_CFLAGS and CGO_LDFLAGS, as
//
//	CGO_CFLAGS=-I$top/include CGO_LDFLAGS=$top/crates/embedding/out/libfcbench.a go test ./...
package fcbench

/*
#include "fcbench.h"
*/
import "C"

import (
	"strings"
	"unsafe"
)

// Steps stands for as many steps as the program takes if it is given none: 1,000,000; of a judgement 100 for each operation of the
// object if that is more.
const Steps = 1<<32 - 1

// capacity is how much room there is for lines at first.
const capacity = 512

// Verdict is the answer for a history.
type Verdict uint32

const (
	// Yes says that the history is linearizable, which is proved.
	Yes Verdict = 0
	// No of Judge and Refute says that the history is not linearizable, which is proved. Of Check: the certificates are refused.
	No Verdict = 1
	// Malformed says that a text is malformed.
	Malformed Verdict = 2
	// Undecided says that it is not decided: an object stays open, or an allocation failed.
	Undecided Verdict = 3
)

// Answer is a verdict, and the lines that say why.
type Answer struct {
	Verdict Verdict
	Lines   string
}

// IsYes says whether the verdict is Yes.
func (a Answer) IsYes() bool { return a.Verdict == Yes }

// IsNo says whether the verdict is No.
func (a Answer) IsNo() bool { return a.Verdict == No }

// Reasons gives the reasons among the lines, as Refute reads them: of each line that begins with "; {" what follows the "; ".
func (a Answer) Reasons() string {
	var reasons strings.Builder
	for _, line := range strings.SplitAfter(a.Lines, "\n") {
		if strings.HasPrefix(line, "; {") {
			reasons.WriteString(line[2:])
		}
	}
	return reasons.String()
}

func bytesOf(text []byte) (*C.uint8_t, C.size_t) {
	if len(text) == 0 {
		return nil, 0
	}
	return (*C.uint8_t)(unsafe.Pointer(&text[0])), C.size_t(len(text))
}

// whole calls with more room until all lines fit.
func whole(call func(out []byte) (Verdict, int)) Answer {
	out := make([]byte, capacity)
	for {
		verdict, needed := call(out)
		if needed <= len(out) {
			return Answer{verdict, string(out[:needed])}
		}
		out = make([]byte, needed)
	}
}

// Judge judges a history: certificates are found, or a reason why there are none.
func Judge(history string) Answer {
	return JudgeWithSteps(history, Steps)
}

// JudgeWithSteps judges a history, with at most this many steps of the last search for each object.
func JudgeWithSteps(history string, steps uint32) Answer {
	return whole(func(out []byte) (Verdict, int) { return JudgeInto([]byte(history), steps, out) })
}

// JudgeInto judges a history, with at most this many steps of the last search for each object, and writes the lines into a buffer.
// They are cut if it is too small. It also gives how long they are.
func JudgeInto(history []byte, steps uint32, out []byte) (Verdict, int) {
	var needed C.size_t
	text, length := bytesOf(history)
	at, room := bytesOf(out)
	status := C.fcbench_judge(text, length, C.uint32_t(steps), at, room, &needed)
	return judging.answered(uint32(status), out, int(needed))
}

// Check judges a history by certificates.
func Check(history, certificates string) Answer {
	text, length := bytesOf([]byte(history))
	orders, count := bytesOf([]byte(certificates))
	return whole(func(out []byte) (Verdict, int) {
		var needed C.size_t
		at, room := bytesOf(out)
		status := C.fcbench_check(text, length, orders, count, at, room, &needed)
		return checking.answered(uint32(status), out, int(needed))
	})
}

// Find finds certificates: if it is a yes, the lines are their text.
func Find(history string) Answer {
	text, length := bytesOf([]byte(history))
	return whole(func(out []byte) (Verdict, int) {
		var needed C.size_t
		at, room := bytesOf(out)
		status := C.fcbench_find(text, length, at, room, &needed)
		return finding.answered(uint32(status), out, int(needed))
	})
}

// Refute checks reasons why a history is not linearizable. It never answers Yes.
func Refute(history, reasons string) Answer {
	return RefuteWithSteps(history, reasons, Steps)
}

// RefuteWithSteps checks reasons, with at most this many steps of the search of a part.
func RefuteWithSteps(history, reasons string, steps uint32) Answer {
	text, length := bytesOf([]byte(history))
	why, count := bytesOf([]byte(reasons))
	return whole(func(out []byte) (Verdict, int) {
		var needed C.size_t
		at, room := bytesOf(out)
		status := C.fcbench_refute(text, length, why, count, C.uint32_t(steps), at, room, &needed)
		return refuting.answered(uint32(status), out, int(needed))
	})
}

// Verify checks evidence from any source, and judges a history by what it shows.
func Verify(history, evidence string) Answer {
	text, length := bytesOf([]byte(history))
	claims, count := bytesOf([]byte(evidence))
	return whole(func(out []byte) (Verdict, int) {
		var needed C.size_t
		at, room := bytesOf(out)
		status := C.fcbench_verify(text, length, claims, count, C.FCBENCH_STEPS, at, room, &needed)
		return judging.answered(uint32(status), out, int(needed))
	})
}
