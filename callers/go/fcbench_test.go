package fcbench

import (
	"strings"
	"sync"
	"testing"
)

const queueHistory = `{:process 0, :type :invoke, :f :enqueue, :value 1}
{:process 0, :type :ok, :f :enqueue, :value 1}
{:process 0, :type :invoke, :f :dequeue}
{:process 0, :type :ok, :f :dequeue, :value 1}
`
const yesLines = "yes: 2 operations, 1 objects\nqueue: 1 objects, 2 operations\n"

// The register contains 2 where 1 is read.
const oldRead = `{:process 0, :type :invoke, :f :write, :value 1}
{:process 0, :type :ok, :f :write, :value 1}
{:process 0, :type :invoke, :f :write, :value 2}
{:process 0, :type :ok, :f :write, :value 2}
{:process 0, :type :invoke, :f :read}
{:process 0, :type :ok, :f :read, :value 1}
`

func want(t *testing.T, answer Answer, verdict Verdict, lines string) {
	t.Helper()
	if answer.Verdict != verdict || answer.Lines != lines {
		t.Fatalf("wanted %v and %q, and not %v", verdict, lines, answer)
	}
}

func TestYes(t *testing.T) {
	want(t, Judge(queueHistory), Yes, yesLines)
	found := Find(queueHistory)
	want(t, found, Yes, "{:object 0, :order [0 2]}\n")
	want(t, Check(queueHistory, found.Lines), Yes, yesLines)
	want(t, Verify(queueHistory, found.Lines), Yes, yesLines)
	want(t, Verify(queueHistory, ""), Undecided, "; object 0: open\n")
}

func TestNo(t *testing.T) {
	answer := Judge(oldRead)
	lines := strings.Split(strings.TrimSpace(answer.Lines), "\n")
	if !answer.IsNo() || answer.Verdict != No || lines[0] != "; object 0: impossible" {
		t.Fatal(answer)
	}
	reason := strings.TrimPrefix(lines[len(lines)-1], "; ")
	if refuted := Refute(oldRead, reason); refuted.Verdict != No {
		t.Fatal(refuted)
	}
	if verified := Verify(oldRead, reason); verified.Verdict != No {
		t.Fatal(verified)
	}
	want(t, Check(queueHistory, ""), No, "no: C1 object 0 has no certificate\n")
}

// The reasons of two objects are two lines.
func TestReasons(t *testing.T) {
	two := oldRead + strings.NewReplacer(":process 0", ":process 1", "}", ", :object 1}").Replace(oldRead)
	reasons := JudgeWithSteps(two, Steps).Reasons()
	if strings.Count(reasons, "\n") != 2 || strings.Count(reasons, "{:object ") != 2 {
		t.Fatal(reasons)
	}
	if Refute(two, reasons).Verdict != No || RefuteWithSteps(two, reasons, Steps).Verdict != No || Refute(queueHistory, reasons).IsYes() {
		t.Fatal(reasons)
	}
	if answer := Judge(queueHistory); !answer.IsYes() || answer.IsNo() || answer.Reasons() != "" {
		t.Fatal(answer)
	}
}

func TestEmptyHistory(t *testing.T) {
	want(t, Judge(""), Yes, "yes: 0 operations, 0 objects\n")
}

func TestMalformed(t *testing.T) {
	want(t, Judge("{:process 0"), Malformed, "malformed history: E2 at byte 11\n")
}

func TestBufferTooSmall(t *testing.T) {
	out := []byte("----------------")
	verdict, needed := JudgeInto([]byte(queueHistory), Steps, out[:10])
	if verdict != Yes || needed != len(yesLines) || string(out) != "yes: 2 ope------" {
		t.Fatal(verdict, needed, string(out))
	}
}

// Each goroutine gets the answers of a call alone. A call of cgo keeps the thread that it is on, so four of them run at once.
func TestSeveralThreadsAtOnce(t *testing.T) {
	refuted := Judge(oldRead)
	var threads sync.WaitGroup
	for thread := 0; thread < 4; thread++ {
		threads.Add(1)
		go func() {
			defer threads.Done()
			for turn := 0; turn < 100; turn++ {
				yes, no := Check(queueHistory, Find(queueHistory).Lines), Judge(oldRead)
				if yes != (Answer{Yes, yesLines}) || no != refuted || Refute(oldRead, no.Reasons()).Verdict != No {
					t.Error(yes, no)
				}
			}
		}()
	}
	threads.Wait()
}
