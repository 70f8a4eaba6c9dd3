package pokhnier

import (
	"context"
	"strings"
)

const longestText = 64

// A Recorded is an error of an earlier run: the store has its text. Two errors with the same text
// are the same one, so errors.Is(err, io.ErrUnexpectedEOF) holds if that was the error.
type Recorded struct{ Text string }

func (e *Recorded) Error() string { return e.Text }

// Is reports whether the target has the same text.
func (e *Recorded) Is(target error) bool { return target.Error() == e.Text }

// A reason is an error with its text. Whoever gives the error asks for the text, once: so no method
// of it runs under the mutex of the store.
type reason struct {
	err  error
	text string
}

func reasonOf(err error) reason { return reason{err, err.Error()} }

// errorOf returns the error with a text. The two errors of package context are themselves.
func errorOf(text string) error {
	switch text {
	case context.Canceled.Error():
		return context.Canceled
	case context.DeadlineExceeded.Error():
		return context.DeadlineExceeded
	}
	return &Recorded{text}
}

// textOf returns the text of an error as the store takes it: 1 to 64 bytes of printable ASCII. A
// text that means something else in the store has `error: ` before it.
func textOf(text string) string {
	text = strings.Map(printable, text)
	if text == "interrupted" || text == "withdrawn" || strings.HasPrefix(text, canceledText) {
		text = "error: " + text
	}
	switch {
	case text == "":
		return "error"
	case len(text) > longestText:
		return text[:longestText-2] + ".."
	}
	return text
}

// canceledText begins the text of a task that was canceled.
const canceledText = "canceled: "

func printable(r rune) rune {
	if r < 0x20 || r > 0x7e {
		return '?'
	}
	return r
}
