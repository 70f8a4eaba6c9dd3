package pokhnier

import "context"

// Cancel cancels the scope for good, and all that lies below it. That is durable when it returns. A
// nil cause is context.Canceled. Once this run has ended, nothing is recorded, and the scope is
// left to the next run: so a Cancel in a defer of a program that was interrupted changes nothing.
func (c *Ctx) Cancel(cause error) error {
	if cause == nil {
		cause = context.Canceled
	}
	s, why := c.s, reasonOf(cause)
	s.mu.Lock()
	isOver := c.Err() != nil && c.localCause() == nil
	if err := s.refusal(); err != nil || isOver || c.isDone == nil {
		s.mu.Unlock()
		return err
	}
	kind, way := isScope, wayGoOn
	if c.group != nil {
		kind, way = isGroup, c.group.way()
	}
	r, err := s.roomOf(c.name, way, kind)
	if err != nil {
		s.mu.Unlock()
		return err
	}
	o := &op{isDone: make(chan struct{})}
	s.todo.dones = append(s.todo.dones, done{r, why})
	for _, it := range s.named[c.name] {
		it := it
		s.todo.dones = append(s.todo.dones, s.donesBelow(it, why)...)
		o.ends = append(o.ends, func() { it.end(context.Canceled, why, false) })
	}
	s.todo.ops = append(s.todo.ops, o)
	s.mu.Unlock()
	s.wakeUp()
	<-o.isDone
	return o.err
}

// donesBelow returns the cancels of the groups with open tasks below a context, but not of its own.
func (s *Store) donesBelow(c *Ctx, why reason) []done {
	var dones []done
	found := map[*room]bool{}
	for it := range s.open {
		g := it.group
		if g.ctx != c && !found[g.room] && !g.room.isDone && g.ctx.isBelow(c) {
			found[g.room] = true
			dones = append(dones, done{g.room, why})
		}
	}
	return dones
}
