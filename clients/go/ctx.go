package pokhnier

import (
	"context"
	"sync"
	"time"
)

// A Ctx is a context of a store. Those who derive from it by package context, or who ask
// context.Cause or context.AfterFunc, find what they expect. Only Cancel and deadlines are durable.
type Ctx struct {
	s      *Store
	name   string // in the plan
	up     *Ctx   // of the store, from which this one is derived
	parent context.Context
	values map[Key]string

	deadline time.Time // its own, or zero
	moment   int64     // the same
	words    string
	cause    reason // of its deadline

	holder context.Context // has the values, and once it is done the cause, for context.Cause
	fill   context.CancelCauseFunc
	isDone chan struct{} // nil of a detached context

	mu        sync.Mutex
	err       error
	why       reason // why it has ended
	local     error  // the same, if it ended for this run alone
	byFailure bool   // of a function of its group
	byWait    bool
	funcs     map[*func()]struct{}
	unwatch   func() bool
	group     *Group // whose context it is, or nil
}

type ctxKey struct{}

// Key is the type of the keys of durable values: ctx.Value(pokhnier.Key("region")).
type Key string

func newCtx(s *Store, name string, parent context.Context, up *Ctx, isDetached bool) *Ctx {
	c := &Ctx{s: s, name: name, parent: parent, up: up, holder: context.WithoutCancel(parent)}
	if !isDetached {
		c.holder, c.fill = context.WithCancelCause(c.holder)
		c.isDone = make(chan struct{})
	}
	return c
}

// Done is closed once the end of the context is durable, or when this run ends.
func (c *Ctx) Done() <-chan struct{} { return c.isDone }

// Err is as in package context.
func (c *Ctx) Err() error {
	c.mu.Lock()
	defer c.mu.Unlock()
	return c.err
}

// Deadline returns the earliest deadline of the context and of those it is derived from.
func (c *Ctx) Deadline() (deadline time.Time, is bool) {
	if c.isDone == nil {
		return
	}
	deadline, is = c.deadline, !c.deadline.IsZero()
	if above, has := c.parent.Deadline(); has && (!is || above.Before(deadline)) {
		return above, true
	}
	return
}

// Value returns a durable value for a Key, and otherwise what the parent has.
func (c *Ctx) Value(key any) any {
	switch key := key.(type) {
	case ctxKey:
		return c
	case Key:
		if text, is := c.values[key]; is {
			return text
		}
	}
	return c.holder.Value(key)
}

func (c *Ctx) String() string { return "pokhnier." + c.name }

// AfterFunc is the method that package context looks for. Once the context has ended, f is called
// in a goroutine of its own. (Package context calls this under a mutex that f takes, and an f of
// others may wait for the store.)
func (c *Ctx) AfterFunc(f func()) func() bool { return c.onEnd(func() { go f() }) }

// onEnd calls f when the context ends, before whoever caused that goes on, or at once if it has
// ended.
func (c *Ctx) onEnd(f func()) func() bool {
	c.mu.Lock()
	if c.err != nil {
		c.mu.Unlock()
		f()
		return func() bool { return false }
	}
	if c.funcs == nil {
		c.funcs = map[*func()]struct{}{}
	}
	c.funcs[&f] = struct{}{}
	c.mu.Unlock()
	return func() bool {
		c.mu.Lock()
		defer c.mu.Unlock()
		_, is := c.funcs[&f]
		delete(c.funcs, &f)
		return is
	}
}

// isBelow reports whether an end of the other context ends this one.
func (c *Ctx) isBelow(other *Ctx) bool {
	for it := c; it != nil && it.isDone != nil; it = it.up {
		if it == other {
			return true
		}
	}
	return false
}

// ctxOf returns the context of a store in which a context lies.
func ctxOf(parent context.Context) *Ctx {
	if parent == nil {
		panic("pokhnier: nil parent")
	}
	up, is := parent.Value(ctxKey{}).(*Ctx)
	if !is {
		panic("pokhnier: the parent lies in no store; begin with Store.Root or Store.On")
	}
	return up
}

// Has reports whether a context lies in a store.
func Has(ctx context.Context) bool {
	_, is := ctx.Value(ctxKey{}).(*Ctx)
	return is
}
