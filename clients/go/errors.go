package pokhnier

import (
	"errors"
	"fmt"
	"strings"
)

var (
	// ErrAbandoned says that a task of the group was interrupted, and that this run hasn't called
	// it. The usual reason is a key that has another name now.
	ErrAbandoned = errors.New("pokhnier: interrupted tasks weren't called again")
	// ErrFull says that the store has no room left for another task.
	ErrFull = errors.New("pokhnier: the store is full")
	// ErrGoexit says that a function ended its goroutine with runtime.Goexit, as t.FailNow does,
	// and so returned nothing. Its task has failed.
	ErrGoexit = errors.New("pokhnier: the function called runtime.Goexit")
	// ErrInterrupted says that this run of the program ends, by Close or by the context that was
	// given to Open. What it left undone is no failure: the next run takes it up.
	ErrInterrupted = errors.New("pokhnier: this run was interrupted")
	// ErrInUse says that another program has the store open.
	ErrInUse = errors.New("pokhnier: the store is in use by another program")
	// ErrLost says that `night` couldn't be kept running.
	ErrLost = errors.New("pokhnier: the store was lost")
	// ErrNoResult says that a task ended well, but has no result: Go began it, and not Do.
	ErrNoResult = errors.New("pokhnier: the task has no result")
	// ErrNotRun says that a task didn't run, because its group was done before.
	ErrNotRun = errors.New("pokhnier: the task wasn't run")
	// ErrOther says that the store has something else with this name than this run asks for.
	ErrOther = errors.New("pokhnier: the store has something else of this name")
	// ErrTwice says that a group was given two tasks with one key.
	ErrTwice = errors.New("pokhnier: the group has a task with this key")
	// ErrUnfinished says that the night can't be finished yet, because tasks of it are open.
	ErrUnfinished = errors.New("pokhnier: tasks of the night are unfinished")
)

// A Refusal is a reason for which `night drive` refused a plan or a line. Refusals are compared by
// errors.Is.
type Refusal uint8

// The refusals of docs/formats/drive.md.
const (
	RefusedName    Refusal = iota + 1 // a group can't have this name
	RefusedTwice                      // a group has two commands with one key
	RefusedOther                      // a task of the store belongs to another job
	RefusedUnknown                    // a command names what doesn't exist
	RefusedTooMuch                    // a command takes more of a pool than its size
	RefusedCircle                     // commands come after each other in a circle
	RefusedLine                       // a line is bad
)

var refusals = map[string]Refusal{
	"name": RefusedName, "twice": RefusedTwice, "other": RefusedOther, "unknown": RefusedUnknown,
	"too-much": RefusedTooMuch, "circle": RefusedCircle, "bad": RefusedLine,
}

func (r Refusal) Error() string {
	for word, it := range refusals {
		if it == r {
			return "pokhnier: night refused: " + word
		}
	}
	return fmt.Sprintf("pokhnier: night refused: %d", uint8(r))
}

// A Fault is a reason for which the store couldn't be read or written. Faults are compared by
// errors.Is.
type Fault uint8

// The faults of docs/formats.md.
const (
	FaultMemory Fault = iota + 1
	FaultDisk
	FaultNotAStore
	FaultWrongSize
	FaultBadSlot
	FaultBadImage
	FaultBadBatch
	FaultBadRecord
	FaultBadEvent
	FaultNumbersSpent
)

var faults = []string{"none", "Memory", "DiskFailed", "NotAStore", "WrongSize", "BadSlot", "BadImage",
	"BadBatch", "BadRecord", "BadEvent", "NumbersSpent"}

func (f Fault) Error() string {
	if int(f) < len(faults) {
		return fmt.Sprintf("pokhnier: fault %d %s", f, faults[f])
	}
	return fmt.Sprintf("pokhnier: fault %d", uint8(f))
}

// A joined error is both. Its text is made when somebody asks for it, and not under the mutex of
// the store.
type joined struct {
	one, other error
	between    string
}

func (e *joined) Error() string { return fmt.Sprintf("%v%s%v", e.one, e.between, e.other) }

func (e *joined) Unwrap() []error { return []error{e.one, e.other} }

// A NightError says how the program `night` ended.
type NightError struct {
	Status int    // its exit status, or -1 after a signal
	Text   string // what it wrote to standard error
}

func (e *NightError) Error() string {
	return fmt.Sprintf("pokhnier: night ended with status %d: %s", e.Status, strings.TrimSpace(e.Text))
}

// Is makes the error of a store that is in use ErrInUse, too.
func (e *NightError) Is(target error) bool {
	return target == ErrInUse && strings.Contains(e.Text, "in use by another program")
}

// A CanceledError says that a task was canceled with its group: the scope that it lies in was
// canceled, or its deadline came. It unwraps to the error and to the cause of the group's context.
type CanceledError struct{ Err, Cause error }

func (e *CanceledError) Error() string {
	return fmt.Sprintf("pokhnier: canceled: %v", e.Cause)
}

// Unwrap returns both errors.
func (e *CanceledError) Unwrap() []error { return []error{e.Err, e.Cause} }
