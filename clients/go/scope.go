package pokhnier

import (
	"context"
	"fmt"
	"time"
)

// A ScopeOption says what a scope has.
type ScopeOption func(*scopeWish)

type scopeWish struct {
	at         time.Time
	words      string
	cause      reason
	values     map[Key]string
	isDetached bool
}

// Deadline gives a scope a deadline, and the cause that it has then; with nil that is
// context.DeadlineExceeded. It comes with the second that at lies in or ends with, never before at.
// A scope that an earlier run made keeps the deadline that it had there.
func Deadline(at time.Time, cause error) ScopeOption {
	return deadline(at, fmt.Sprintf("at %d", momentOf(at)), cause)
}

// Timeout is Deadline, that long after the scope is made in the first run.
func Timeout(wait time.Duration, cause error) ScopeOption {
	return deadline(time.Now().Add(wait), fmt.Sprintf("within %v s", wait.Seconds()), cause)
}

func deadline(at time.Time, words string, cause error) ScopeOption {
	if cause == nil {
		cause = context.DeadlineExceeded
	}
	why := reasonOf(cause)
	return func(w *scopeWish) { w.at, w.words, w.cause = at, words, why }
}

// Value gives a scope a value. A scope that an earlier run made keeps the text that it had there.
// So a number that the first run has drawn is the one of all runs.
func Value(key Key, text string) ScopeOption {
	return func(w *scopeWish) {
		if w.values == nil {
			w.values = map[Key]string{}
		}
		w.values[key] = text
	}
}

// Detached makes a scope that doesn't end with its parent, as context.WithoutCancel does. It has no
// deadline, and can't be canceled.
func Detached() ScopeOption { return func(w *scopeWish) { w.isDetached = true } }

// Scope makes a scope below that of parent, or finds the one that an earlier run made with this
// name. If it was canceled then, or if its deadline has come, it is done from the start. So is a
// scope that the store can't keep, and its cause says why.
func Scope(parent context.Context, name string, options ...ScopeOption) *Ctx {
	var wish scopeWish
	for _, option := range options {
		option(&wish)
	}
	up := ctxOf(parent)
	c := newCtx(up.s, groupName(name), parent, up, wish.isDetached)
	err := c.open(&wish)
	if err == nil {
		c.endAsBefore()
		err = c.openValues(wish.values)
	}
	c.give(err)
	return c
}

// endAsBefore ends a context that an earlier run has ended for good.
func (c *Ctx) endAsBefore() {
	s := c.s
	s.mu.Lock()
	row := s.past.scopes[c.name]
	text, hasText := s.results.text(taskKey{c.name, ""}, 0)
	s.mu.Unlock()
	if row == nil || !row.isDone {
		return
	}
	cause := row.reason
	switch _, isPast := cause.(*Recorded); {
	case row.err == context.DeadlineExceeded && c.cause.err != nil:
		cause = c.cause.err
	case hasText && isPast && textOf(text) == cause.Error():
		cause = errorOf(text)
	}
	c.end(row.err, reasonOf(cause), false)
}

// give lets a context live, or ends it for this run if it couldn't be opened.
func (c *Ctx) give(err error) {
	if err != nil && c.isDone == nil { // a detached one can't say so otherwise
		c.holder, c.fill = context.WithCancelCause(c.holder)
		c.isDone = make(chan struct{})
	}
	if err != nil {
		c.end(context.Canceled, reasonOf(err), true)
		return
	}
	c.watch()
	c.s.mu.Lock()
	cut := c.s.cut
	c.s.mu.Unlock()
	if cut != nil {
		c.end(context.Canceled, reasonOf(cut), true)
	}
}

// open finds the scope of a context in the store, or makes it.
func (c *Ctx) open(wish *scopeWish) error {
	s := c.s
	s.mu.Lock()
	o, err := c.openOp(wish)
	s.mu.Unlock()
	if err == nil && o != nil {
		err = s.do(o)
	}
	return err
}

// openOp returns what has to be durable before a context is given out, or nil. The mutex is held.
func (c *Ctx) openOp(wish *scopeWish) (*op, error) {
	s := c.s
	if err := s.refusal(); err != nil {
		return nil, err
	}
	var o *op
	if c.isDone == nil {
		return nil, nil
	}
	if !wish.at.IsZero() {
		isNew, err := c.openDeadline(wish)
		if err != nil {
			return nil, err
		}
		if isNew {
			o = &op{}
		}
	}
	s.ctxs[c] = struct{}{}
	s.named[c.name] = append(s.named[c.name], c)
	return o, nil
}

// openDeadline finds the deadline of a scope, or makes a room for it. It reports whether a round
// has to be durable for that.
func (c *Ctx) openDeadline(wish *scopeWish) (bool, error) {
	s := c.s
	row := s.past.scopes[c.name]
	isOld := row != nil && row.moment > 0
	r, err := s.roomOf(c.name, wayGoOn, isScope)
	if err != nil {
		return false, err
	}
	if r.moment == 0 {
		r.moment, r.words = momentOf(wish.at), wish.words
	}
	c.moment, c.words, c.cause = r.moment, r.words, wish.cause
	c.deadline = time.Unix(c.moment, 0)
	s.dated[c] = struct{}{}
	return !isOld || c.moment <= time.Now().Unix(), nil
}

// lastMoment is the latest one of a store, in the year 9987.
const lastMoment = 253_000_000_000

// momentOf returns the second with which a deadline comes.
func momentOf(at time.Time) int64 {
	moment := at.Unix()
	if at.After(time.Now()) && at.Nanosecond() > 0 {
		moment++
	}
	return min(max(moment, 0), lastMoment)
}
