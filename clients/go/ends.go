package pokhnier

import "context"

// end ends the context, if it hasn't ended. With isLocal it ends for this run alone.
func (c *Ctx) end(err error, why reason, isLocal bool) {
	c.mu.Lock()
	if c.err != nil || c.isDone == nil {
		c.mu.Unlock()
		return
	}
	c.fill(why.err)
	c.err, c.why = err, why
	if isLocal {
		c.local = why.err
	}
	close(c.isDone)
	funcs, unwatch := c.funcs, c.unwatch
	c.funcs, c.unwatch = nil, nil
	c.mu.Unlock()
	if unwatch != nil {
		unwatch()
	}
	for _, it := range c.s.forget(c, isLocal) {
		it.give()
	}
	for it := range funcs {
		(*it)()
	}
}

// reason returns why the context has ended.
func (c *Ctx) reason() reason {
	c.mu.Lock()
	defer c.mu.Unlock()
	return c.why
}

// forget forgets a context that has ended. If it ended for this run alone, commands of its group
// that wait are left to the next run. If it ended with a scope above it, the program has to know.
func (s *Store) forget(c *Ctx, isLocal bool) []outcome {
	s.mu.Lock()
	defer s.mu.Unlock()
	delete(s.ctxs, c)
	delete(s.dated, c)
	s.dropNamed(c)
	switch g := c.group; {
	case g == nil:
	case isLocal:
		return s.leaveWaiting(g, c.localCause())
	case g.room != nil && g.room.active > 0 && !g.room.isDone && c.isEndedAbove():
		s.todo.dones = append(s.todo.dones, done{g.room, c.reason()})
		s.wakeUp()
	}
	return nil
}

func (s *Store) dropNamed(c *Ctx) {
	var left []*Ctx
	for _, it := range s.named[c.name] {
		if it != c {
			left = append(left, it)
		}
	}
	if s.named[c.name] = left; left == nil {
		delete(s.named, c.name)
	}
}

// endByFailure ends the context of a group. The program knows of it.
func (c *Ctx) endByFailure(why reason) {
	c.mu.Lock()
	c.byFailure = c.byFailure || c.err == nil
	c.mu.Unlock()
	c.end(context.Canceled, why, false)
}

// endByWait ends the context of a group that was waited for, if it hasn't ended.
func (c *Ctx) endByWait(why reason) {
	c.mu.Lock()
	c.byWait = c.byWait || c.err == nil
	c.mu.Unlock()
	c.end(context.Canceled, why, false)
}

// isEndedAbove reports whether the context has ended for a reason that the program doesn't know.
func (c *Ctx) isEndedAbove() bool {
	c.mu.Lock()
	defer c.mu.Unlock()
	return c.err != nil && !c.byFailure && !c.byWait
}

// localCause returns why the context ended for this run alone, or nil.
func (c *Ctx) localCause() error {
	c.mu.Lock()
	defer c.mu.Unlock()
	return c.local
}

// watch ends the context with its parent: for good if the parent's end is durable.
func (c *Ctx) watch() {
	if c.isDone == nil || c.parent.Done() == nil {
		return
	}
	follow := func() {
		isLocal := c.up.Err() == nil || c.up.localCause() != nil
		c.end(c.parent.Err(), reasonOf(context.Cause(c.parent)), isLocal)
	}
	var unwatch func() bool
	if c.parent.Done() == c.up.Done() {
		unwatch = c.up.onEnd(follow)
	} else {
		unwatch = context.AfterFunc(c.parent, follow)
	}
	c.mu.Lock()
	isDone := c.err != nil
	c.unwatch = unwatch
	c.mu.Unlock()
	if isDone {
		unwatch()
	}
}
