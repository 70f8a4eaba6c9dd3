// Package context has the API of package context over a store. Cause and AfterFunc are its own.
package context

import (
	std "context"
	"time"

	"pokhnier"
	"pokhnier/internal/foreign"
)

// These are package context's own.
type (
	Context         = std.Context
	CancelFunc      = std.CancelFunc
	CancelCauseFunc = std.CancelCauseFunc
)

// These are package context's own.
var (
	Canceled         = std.Canceled
	DeadlineExceeded = std.DeadlineExceeded
	Cause            = std.Cause
	AfterFunc        = std.AfterFunc
)

// on puts a context that lies in no store into one.
func on(parent Context) Context {
	if parent == nil {
		panic("cannot create context from nil parent")
	}
	if pokhnier.Has(parent) {
		return parent
	}
	return foreign.Store().On(parent)
}

func scope(parent Context, options ...pokhnier.ScopeOption) *pokhnier.Ctx {
	return pokhnier.Scope(on(parent), foreign.Name(), options...)
}

// Background returns the root of a store.
func Background() Context { return foreign.Store().Root() }

// TODO returns the root of a store.
func TODO() Context { return foreign.Store().Root() }

// WithCancel returns a scope, and its Cancel.
func WithCancel(parent Context) (Context, CancelFunc) {
	c := scope(parent)
	return c, func() { c.Cancel(nil) }
}

// WithCancelCause returns a scope, and its Cancel.
func WithCancelCause(parent Context) (Context, CancelCauseFunc) {
	c := scope(parent)
	return c, func(cause error) { c.Cancel(cause) }
}

// WithDeadline returns a scope with a deadline.
func WithDeadline(parent Context, at time.Time) (Context, CancelFunc) {
	return WithDeadlineCause(parent, at, nil)
}

// WithDeadlineCause returns a scope with a deadline.
func WithDeadlineCause(parent Context, at time.Time, cause error) (Context, CancelFunc) {
	c := scope(parent, pokhnier.Deadline(at, cause))
	return c, func() { c.Cancel(nil) }
}

// WithTimeout returns a scope with a timeout.
func WithTimeout(parent Context, wait time.Duration) (Context, CancelFunc) {
	return WithTimeoutCause(parent, wait, nil)
}

// WithTimeoutCause returns a scope with a timeout.
func WithTimeoutCause(parent Context, wait time.Duration, cause error) (Context, CancelFunc) {
	c := scope(parent, pokhnier.Timeout(wait, cause))
	return c, func() { c.Cancel(nil) }
}

// WithoutCancel returns a detached scope.
func WithoutCancel(parent Context) Context { return scope(parent, pokhnier.Detached()) }

// WithValue keeps texts under texts in the store. Other keys and values are of this run.
func WithValue(parent Context, key, value any) Context {
	name, isName := key.(string)
	text, isText := value.(string)
	if isName && isText {
		parent = scope(parent, pokhnier.Value(pokhnier.Key(name), text))
	}
	return std.WithValue(parent, key, value)
}
