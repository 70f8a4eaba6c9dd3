package pokhnier

import (
	"context"
	"encoding/json"
	"fmt"
	"sort"
	"strings"
	"sync"
	"time"
)

// A Group is an errgroup.Group whose functions are tasks of the store. WithContext and Store.Group
// make one.
type Group struct {
	s       *Store
	name    string
	ctx     *Ctx
	isOwn   bool // the context ends with the first failure and with Wait
	retries int
	wait    int64
	open    sync.WaitGroup

	// The rest is guarded by the mutex of the store.
	room     *room
	called   map[string]bool
	local    error // why something of it couldn't be asked for
	left     error // why a task was left to the next run
	canceled bool  // a task was canceled, or isn't run
}

// A GroupOption says how the tasks of a group are run.
type GroupOption func(*Group)

// Retries lets the program begin a function again after a failure, at most this many times, and
// this long after it. A failure for good is one without a retry left.
func Retries(most int, wait time.Duration) GroupOption {
	seconds := wait / time.Second
	if wait%time.Second > 0 {
		seconds++
	}
	return func(g *Group) {
		g.retries = min(max(most, 0), anyLimit)
		g.wait = min(max(int64(seconds), 0), anyLimit)
	}
}

// WithContext makes a group with a context of its own, or finds the one of this name. The context
// ends with the first failure of a function, in whichever run, and with Wait. The failure is its
// cause. Functions that haven't begun by then aren't called.
func WithContext(parent context.Context, name string, options ...GroupOption) (*Group,
	context.Context) {
	g := newGroup(parent, name, true, options)
	return g, g.ctx
}

// Group makes a group whose functions live in the context of parent, as a zero errgroup.Group, or
// finds the one of this name. A failure cancels nothing. A parent that doesn't lie in this store
// gets a place in it, as by On.
func (s *Store) Group(parent context.Context, name string, options ...GroupOption) *Group {
	if parent != nil && (!Has(parent) || ctxOf(parent).s != s) {
		parent = s.On(parent)
	}
	return newGroup(parent, name, false, options)
}

func newGroup(parent context.Context, name string, isOwn bool, options []GroupOption) *Group {
	up := ctxOf(parent)
	g := &Group{s: up.s, name: groupName(name), isOwn: isOwn, called: map[string]bool{}}
	g.ctx = newCtx(up.s, g.name, parent, up, parent.Done() == nil && !isOwn)
	g.ctx.group = g
	for _, option := range options {
		option(g)
	}
	err := g.ctx.open(&scopeWish{})
	if err == nil {
		err = g.askFirst()
	}
	g.ctx.give(err)
	// The group is done with what it lies in: that context has the cause.
	g.ctx.endAsBefore()
	g.s.mu.Lock()
	g.local = err
	first := g.s.firstOf(g)
	g.s.mu.Unlock()
	if isOwn && first != nil && g.retries == 0 {
		g.ctx.endByFailure(reasonOf(first))
	}
	return g
}

func (g *Group) way() string {
	if g.isOwn {
		return wayCancel
	}
	return wayGoOn
}

// failed takes an error that can't be recorded.
func (g *Group) failed(err error) {
	g.s.mu.Lock()
	if g.local == nil {
		g.local = err
	}
	g.s.mu.Unlock()
	if g.isOwn {
		g.ctx.end(context.Canceled, reasonOf(err), true)
	}
}

// SetLimit limits how many functions of the group run at a time. A negative limit is none. It must
// not be called while tasks of the group are open.
func (g *Group) SetLimit(n int) {
	s := g.s
	s.mu.Lock()
	err := s.refusal()
	if err == nil {
		err = s.ensureRoom(g)
	}
	active := 0
	if err == nil {
		active = g.room.active
	}
	if err == nil && active == 0 {
		s.limit(g.room, n)
	}
	s.mu.Unlock()
	if active > 0 {
		panic(fmt.Errorf("pokhnier: modify limit while %v tasks of the group are open", active))
	}
	if err != nil {
		g.failed(err)
	}
	s.wakeUp()
}

// limit gives a room a pool of this size. The mutex is held.
func (s *Store) limit(r *room, n int) {
	if r.pool == 0 {
		s.pools++
		s.todo.pools++
		r.pool = s.pools
	}
	r.limit = max(n, -1)
	s.todo.sizes = append(s.todo.sizes, r)
}

// Go lets the program begin f in a goroutine, as the task with this key. Its beginning is durable
// before f is called. If the task ended well in an earlier run, f isn't called. Go doesn't block:
// if as many functions run as the limit allows, f waits.
func (g *Group) Go(key string, f func(context.Context) error) {
	g.add(plainCommand(g, key, f), false)
}

func plainCommand(g *Group, key string, f func(context.Context) error) *command {
	return &command{group: g, key: keyName(key),
		run: func(ctx context.Context) (json.RawMessage, error) { return nil, f(ctx) }}
}

// TryGo is Go, if fewer tasks of the group are open than the limit. It reports whether that was so.
// For a task that ended well it returns true.
func (g *Group) TryGo(key string, f func(context.Context) error) bool {
	return g.add(plainCommand(g, key, f), true)
}

// Wait waits until the tasks of the group are over, and until that is durable. It returns the first
// failure of a function, in whichever run: in this run the very error, otherwise one with its text.
// An interruption is no failure: if this run ends first, Wait returns ErrInterrupted.
func (g *Group) Wait() error {
	g.open.Wait()
	s := g.s
	s.mu.Lock()
	err := s.resultOf(g)
	s.mu.Unlock()
	if g.isOwn {
		cause := err
		if cause == nil {
			cause = context.Canceled
		}
		g.ctx.endByWait(reasonOf(cause))
	}
	return err
}

// resultOf returns what Wait returns. The mutex is held.
func (s *Store) resultOf(g *Group) error {
	if first := s.firstOf(g); first != nil {
		if g.local != nil {
			return &joined{first, g.local, "; "}
		}
		return first
	}
	abandoned := s.abandoned(g)
	switch {
	case g.local != nil:
		return g.local
	case g.left != nil:
		return g.left
	case g.canceled && g.ctx.Err() != nil:
		return &CanceledError{g.ctx.Err(), context.Cause(g.ctx)}
	case g.canceled:
		return ErrNotRun
	case abandoned != nil:
		return fmt.Errorf("%w: %s: %s", ErrAbandoned, g.name, strings.Join(abandoned, " "))
	}
	return nil
}

// abandoned returns the keys of tasks that were interrupted, and that this run hasn't called.
func (s *Store) abandoned(g *Group) []string {
	var keys []string
	for named, row := range s.past.tasks {
		if named.group == g.name && row.phase == phaseInterrupted && !g.called[named.key] {
			keys = append(keys, named.key)
		}
	}
	sort.Strings(keys)
	return keys
}
