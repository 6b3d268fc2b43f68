package fcbench

import (
	"bytes"
	"fmt"
)

// A function of the library.
type function int

const (
	checking function = iota
	finding
	judging // and verifying
	refuting
)

// beginnings has, for a function and a verdict, what the first line may begin with; "": there may be no line. It is the table of
// docs/commands.md.
var beginnings = map[function]map[Verdict][]string{
	checking: {
		Yes:       {"yes: "},
		No:        {"no: "},
		Malformed: {"malformed history: ", "malformed certificates: "},
		Undecided: {"out of memory\n"},
	},
	finding: {
		Yes:       {"{:object ", ""},
		Malformed: {"malformed history: "},
		Undecided: {"{:object ", "; object ", ""},
	},
	judging: {
		Yes:       {"yes: "},
		No:        {"; object "},
		Malformed: {"malformed history: "},
		Undecided: {"; object ", "malformed evidence: ", "out of memory\n"},
	},
	refuting: {
		No:        {"not linearizable: object ", "object "},
		Malformed: {"malformed history: ", "malformed reasons: "},
		Undecided: {"object ", "out of memory\n", ""},
	},
}

// isOfNo says whether only a No has this line; of finding, whether no Yes has it.
func (f function) isOfNo(line []byte) bool {
	switch f {
	case checking:
		return bytes.HasPrefix(line, []byte("no: "))
	case finding:
		return len(line) > 0 && !bytes.Contains(line, []byte(", :order "))
	case judging:
		return bytes.HasPrefix(line, []byte("; object ")) && bytes.HasSuffix(line, []byte(": impossible"))
	case refuting:
		return bytes.HasPrefix(line, []byte("not linearizable: object "))
	}
	return false
}

// areOfYes says whether all lines are of a Yes: the counts of the history, or of a kind.
func areOfYes(lines []byte) bool {
	for _, line := range bytes.Split(lines, []byte("\n")) {
		isFirst := bytes.HasPrefix(line, []byte("yes: ")) && bytes.HasSuffix(line, []byte(" objects"))
		isOther := !bytes.HasPrefix(line, []byte(";")) && bytes.HasSuffix(line, []byte(" operations"))
		if len(line) > 0 && !isFirst && !isOther {
			return false
		}
	}
	return true
}

// hasNo says whether a line is one that only a No has.
func (f function) hasNo(lines []byte) bool {
	for _, line := range bytes.Split(lines, []byte("\n")) {
		if f.isOfNo(line) {
			return true
		}
	}
	return false
}

// begins says whether the first of needed bytes may be those of an answer with this verdict.
func (f function) begins(verdict Verdict, lines []byte, needed int) bool {
	for _, beginning := range beginnings[f][verdict] {
		shown := min(len(beginning), len(lines))
		isIt := needed >= len(beginning) && string(lines[:shown]) == beginning[:shown]
		if isIt && (beginning != "" || needed == 0) {
			return true
		}
	}
	return false
}

func min(a, b int) int {
	if a < b {
		return a
	}
	return b
}

// answered gives the verdict of a status and the length of all lines. It panics if the lines, as far as there was room for them, do not
// fit the status: then the library is not libfcbench, or not as it was built.
func (f function) answered(status uint32, out []byte, needed int) (Verdict, int) {
	verdict, lines := Verdict(status), out[:min(needed, len(out))]
	isWhole := len(lines) == needed
	isEnded := len(lines) == 0 || lines[len(lines)-1] == '\n'
	saysSo := f.hasNo(lines) == (verdict == No) && (verdict != Yes || areOfYes(lines))
	if f == finding {
		saysSo = verdict != Yes || !f.hasNo(lines)
	}
	if !f.begins(verdict, lines, needed) || isWhole && !(isEnded && saysSo) {
		panic(fmt.Sprintf("fcbench: the library gave the status %d and these lines, which are of no answer: %q", status, lines))
	}
	return verdict, needed
}
