package pokhnier

import (
	"errors"
	"fmt"
	"strconv"
	"strings"
)

// A begun is a try that begins, or one that has another task now.
type begun struct {
	command, task, try int
	group, key         string
}

// A stop asks for the end of a try.
type stop struct {
	task int
	why  string
}

// An answer of `night drive` to a plan or a round.
type answer struct {
	night            int
	begins, rebounds []begun
	stops            []stop
	later            int64          // when to ask again, or 0
	stands           map[int]string // how a command stands, if that was asked
	firsts           map[int]string // the first error of a group that was asked for and has one
	isDurable        bool
	isOver           bool
}

// readAnswer reads the lines of an answer. A refusal, a fault and a full store are errors.
func readAnswer(lines []string) (*answer, error) {
	a := &answer{stands: map[int]string{}, firsts: map[int]string{}}
	for _, line := range lines {
		word, rest, _ := strings.Cut(line, " ")
		if why := refusals[word]; why != 0 {
			return nil, fmt.Errorf("%w: `%s`", why, line)
		}
		if err := a.take(word, rest); err != nil {
			return nil, fmt.Errorf("pokhnier: `%s`: %w", line, err)
		}
	}
	return a, nil
}

func (a *answer) take(word, rest string) (err error) {
	switch word {
	case "plan":
	case "night":
		a.night, err = strconv.Atoi(rest)
	case "begin":
		a.begins, err = addBegun(a.begins, rest)
	case "rebound":
		a.rebounds, err = addBegun(a.rebounds, rest)
	case "stop":
		number, why, _ := strings.Cut(rest, " ")
		task, not := strconv.Atoi(number)
		a.stops, err = append(a.stops, stop{task, why}), not
	case "later":
		a.later, err = strconv.ParseInt(rest, 10, 64)
	case "stands":
		number, standing, _ := strings.Cut(rest, " ")
		command, not := strconv.Atoi(number)
		a.stands[command], err = standing, not
	case "first":
		number, text, _ := strings.Cut(rest, " ")
		group, not := strconv.Atoi(number)
		a.firsts[group], err = text, not
	case "durable":
		a.isDurable = true
	case "over":
		a.isOver = true
	case "full":
		err = ErrFull
	case "fault":
		err = faultOf(rest)
	default:
		err = RefusedLine
	}
	return err
}

func addBegun(all []begun, rest string) ([]begun, error) {
	words := strings.Split(rest, " ")
	if len(words) != 5 {
		return nil, RefusedLine
	}
	command, noCommand := strconv.Atoi(words[0])
	task, noTask := strconv.Atoi(words[1])
	try, noTry := strconv.Atoi(words[4])
	it := begun{command, task, try, words[2], words[3]}
	return append(all, it), errors.Join(noCommand, noTask, noTry)
}

func faultOf(rest string) error {
	number, _, _ := strings.Cut(rest, " ")
	n, err := strconv.Atoi(number)
	if err != nil {
		return err
	}
	return Fault(n)
}
