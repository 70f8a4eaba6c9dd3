package pokhnier

import (
	"context"
	"encoding/json"
)

func isFinalStanding(standing string) bool {
	switch standing {
	case "ok", "failed", "canceled", "given-up":
		return true
	}
	return false
}

// takeRecorded takes the end of a command that is durable now.
func (s *Store) takeRecorded(n *news, c *command, a *answer) {
	g := c.group
	delete(s.plan.running, c.task)
	row := &pastTask{last: c.try, phase: phaseOK}
	s.past.tasks[taskKey{g.name, c.key}] = row
	if c.err == nil {
		n.outcomes = append(n.outcomes, s.settle(c, c.result, nil))
		return
	}
	row.phase, row.text = phaseFailed, textOf(c.text)
	if !isFinalStanding(a.stands[c.number]) {
		s.takeRetry(n, c)
		return
	}
	if c.why.err == nil {
		s.takeFailure(n, c)
	} else {
		row.text = canceledText
		g.canceled = true
	}
	s.finals[taskKey{g.name, c.key}] = c.err
	n.outcomes = append(n.outcomes, s.settle(c, nil, c.err))
}

// takeRetry lets a command wait for its retry, unless nothing of it begins any more in this run.
func (s *Store) takeRetry(n *news, c *command) {
	c.phase, c.err, c.result = isWaiting, nil, nil
	if local := s.localCause(c); local != nil {
		n.outcomes = append(n.outcomes, s.leave(c, local))
	}
}

// localCause returns why a command is left to the next run, or nil.
func (s *Store) localCause(c *command) error {
	if s.cut != nil {
		return s.cut
	}
	return c.group.ctx.localCause()
}

// takeFailure takes a failure for good. If the group has a context of its own, it ends with the
// first error of the group, and so do groups in it.
func (s *Store) takeFailure(n *news, c *command) {
	g := c.group
	if !g.isOwn {
		return
	}
	why := reason{c.err, c.text}
	if first := s.firsts[g.name]; first.err != nil && first.key != c.key {
		why = reason{first.err, first.text}
	}
	for _, it := range s.named[g.name] {
		if it := it; it.group != nil && it.group.isOwn {
			n.ends = append(n.ends, func() { it.endByFailure(why) })
		}
	}
	s.todo.dones = append(s.todo.dones, s.donesBelow(g.ctx, why)...)
}

// takeStanding takes how a command stands that isn't running.
func (s *Store) takeStanding(n *news, c *command, standing string) {
	if c == nil || c.phase != isWaiting || !isFinalStanding(standing) {
		return
	}
	g, named := c.group, taskKey{c.group.name, c.key}
	var result json.RawMessage
	var err error
	switch row := s.past.tasks[named]; {
	case standing == "ok":
		result = s.results.values[named].Value
	case standing == "failed":
		err = s.pastError(named, row)
	default:
		g.canceled = true
		err = s.whyNotRun(g)
		if row != nil {
			row.phase, row.text = phaseFailed, canceledText
		}
	}
	s.finals[named] = err
	n.outcomes = append(n.outcomes, s.settle(c, result, err))
}

// whyNotRun returns the error of a task that isn't run, because its group is done.
func (s *Store) whyNotRun(g *Group) error {
	if first := s.firstOf(g); first != nil {
		return &joined{ErrNotRun, first, ": "}
	}
	if cause := context.Cause(g.ctx); cause != nil {
		return &joined{ErrNotRun, cause, ": "}
	}
	return ErrNotRun
}
