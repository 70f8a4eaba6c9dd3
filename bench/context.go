// Obeys the lines of inputs.py with Go's package context, as a plain program would: a map from names
// to contexts, a reader and a writer with buffers. It prints what `night demo` prints for them, so
// that the two outputs can be compared. It wants Go 1.21 (causes, and contexts without a cancel).
// It keeps nothing: no record is written of what it was asked to do.
package main

import (
	"bufio"
	"context"
	"errors"
	"fmt"
	"os"
	"strings"
)

// scope is a context with what its lines may ask of it.
type scope struct {
	context.Context
	cancel     context.CancelCauseFunc
	takesCause bool
}

func main() {
	in := bufio.NewScanner(os.Stdin)
	out := bufio.NewWriterSize(os.Stdout, 4096)
	scopes := map[string]scope{"root": {Context: context.Background()}}
	events := 1
	for in.Scan() {
		word, rest, _ := strings.Cut(in.Text(), " ")
		switch word {
		case "derive":
			words := strings.Split(rest, " ")
			parent, known := scopes[words[1]]
			if !known {
				out.WriteString("refused 1 NoSuchScope\n")
				continue
			}
			if _, taken := scopes[words[0]]; taken {
				out.WriteString("refused 2 NameTaken\n")
				continue
			}
			ctx, cancel := context.WithCancelCause(parent)
			fmt.Fprintf(out, "scope %d\n", len(scopes))
			scopes[words[0]] = scope{ctx, cancel, words[2] == "cause"}
			events++
		case "cancel":
			name, cause, _ := strings.Cut(rest, " ")
			it, known := scopes[name]
			switch {
			case !known:
				out.WriteString("refused 1 NoSuchScope\n")
			case cause != "" && !it.takesCause:
				out.WriteString("refused 11 CauseNotTaken\n")
			case it.Err() != nil:
				out.WriteString("refused 12 AlreadyDone\n")
			case cause != "":
				it.cancel(errors.New(cause))
				out.WriteString("ok\n")
				events++
			default:
				it.cancel(nil)
				out.WriteString("ok\n")
				events++
			}
		case "scope":
			it, known := scopes[rest]
			if !known {
				out.WriteString("refused 1 NoSuchScope\n")
			} else if err := it.Err(); err != nil {
				cause := context.Cause(it)
				fmt.Fprintf(out, "done; deadline none; err %v; cause %v\n", err, cause)
			} else {
				out.WriteString("live; deadline none\n")
			}
		default:
			out.WriteString("bad line\n")
		}
	}
	fmt.Fprintf(out, "acked %d\n", events)
	out.Flush()
}
