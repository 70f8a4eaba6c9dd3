package pokhnier

import (
	"context"
	"encoding/json"
)

// A command is a task of a group that this run has called.
type command struct {
	group *Group
	key   string
	order int
	run   func(context.Context) (json.RawMessage, error)
	then  func(json.RawMessage, error) // once the end is durable, or if there will be none

	// The rest is guarded by the mutex of the store.
	phase  phase
	number int // in the plan of this session
	task   int
	try    tryName
	result json.RawMessage
	err    error
	text   string // of the error
	why    reason // why the program asked it to stop, if it did
	cancel context.CancelCauseFunc
}

type phase uint8

const (
	isWaiting phase = iota // for the program to begin it
	isRunning
	hasEnded // and the end isn't durable yet
	isFinal  // or left to the next run
)

// work runs the function of a command.
func (c *command) work() {
	s, g := c.group.s, c.group
	defer s.functions.Done()
	ctx, cancel := context.WithCancelCause(g.ctx)
	defer cancel(nil)
	defer context.AfterFunc(s.root, func() { cancel(context.Cause(s.root)) })()
	s.mu.Lock()
	c.cancel = cancel
	why := c.why.err
	s.mu.Unlock()
	if why != nil {
		cancel(why)
	}
	c.call(context.WithValue(ctx, commandKey{}, c))
}

// call calls the function, and takes its end. One that ends its goroutine has failed. A panic is no
// end: it goes on with its stack, and ends the program.
func (c *command) call(ctx context.Context) {
	hasReturned := false
	defer func() {
		if hasReturned {
			return
		}
		if why := recover(); why != nil {
			panic(why)
		}
		c.group.s.takeEnd(c, nil, ErrGoexit)
	}()
	result, err := c.run(ctx)
	hasReturned = true
	c.group.s.takeEnd(c, result, err)
}

// takeEnd takes the end of a function. An error that comes after the end of this run, or of a
// context that ends for this run alone, isn't recorded: the next run begins the task again.
func (s *Store) takeEnd(c *command, result json.RawMessage, err error) {
	text := ""
	if err != nil {
		text = err.Error()
	}
	s.mu.Lock()
	local := s.dead
	if local == nil && err != nil && c.why.err == nil {
		local = s.localCause(c)
	}
	if local != nil {
		outcome := s.leave(c, local)
		s.mu.Unlock()
		outcome.give()
		return
	}
	c.phase, c.result, c.err, c.text = hasEnded, result, err, text
	s.todo.ends = append(s.todo.ends, c)
	s.mu.Unlock()
	s.wakeUp()
}

// An outcome is what becomes of a command in this run.
type outcome struct {
	command *command
	result  json.RawMessage
	err     error
}

// give lets those who wait for the command have its outcome. The mutex isn't held.
func (o outcome) give() {
	if o.command.then != nil {
		o.command.then(o.result, o.err)
	}
	o.command.group.open.Done()
}

// settle ends a command for this run.
func (s *Store) settle(c *command, result json.RawMessage, err error) outcome {
	c.phase = isFinal
	c.group.room.active--
	delete(s.open, c)
	delete(s.isOpen, taskKey{c.group.name, c.key})
	return outcome{c, result, err}
}

// leave leaves a command to the next run.
func (s *Store) leave(c *command, why error) outcome {
	if c.group.left == nil {
		c.group.left = why
	}
	s.hasLeft = true
	s.left[taskKey{c.group.name, c.key}] = why
	return s.settle(c, nil, why)
}

// leaveWaiting leaves all commands that wait, of one group or of all.
func (s *Store) leaveWaiting(g *Group, why error) []outcome {
	var all []outcome
	for c := range s.open {
		if c.phase == isWaiting && (g == nil || c.group == g) {
			all = append(all, s.leave(c, why))
		}
	}
	return all
}
