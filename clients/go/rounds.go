package pokhnier

import (
	"context"
	"errors"
	"fmt"
)

// round writes a part, and takes its answer. Nobody learns of anything before it is durable.
func (s *Store) round(p *part) error {
	if err := s.results.write(p.results); err != nil {
		return fmt.Errorf("%w: %w", errResults, err)
	}
	lines, err := s.session.ask(p.lines)
	if lines == nil && err != nil {
		return err
	}
	a, err := readAnswer(lines)
	if err != nil {
		return err
	}
	if !a.isDurable {
		return errors.New("pokhnier: an answer isn't durable")
	}
	s.mu.Lock()
	news := s.take(p, a)
	s.mu.Unlock()
	if err = s.results.write(news.results); err != nil {
		err = fmt.Errorf("%w: %w", errResults, err)
		s.leaveBegun(news, err)
	}
	news.give()
	if err != nil {
		s.session.end()
		s.die(err)
	}
	return nil
}

// leaveBegun leaves the commands that have begun, since the results can't be written.
func (s *Store) leaveBegun(n *news, why error) {
	s.mu.Lock()
	defer s.mu.Unlock()
	s.dead = why
	for _, c := range n.begun {
		s.functions.Done()
		n.outcomes = append(n.outcomes, s.leave(c, why))
	}
	n.begun = nil
}

var errResults = fmt.Errorf("%w: the results can't be read or written", ErrLost)

// take takes the answer to a part. The mutex is held.
func (s *Store) take(p *part, a *answer) *news {
	n := &news{ops: p.ops}
	for _, it := range p.results {
		s.results.take(it)
	}
	for _, it := range p.dones {
		it.room.isDone = true
		s.past.end(it.room.name, context.Canceled, it.why.err)
	}
	for _, c := range p.due {
		c := c
		n.ends = append(n.ends, func() { c.end(context.DeadlineExceeded, c.cause, false) })
		delete(s.dated, c)
		s.past.end(c.name, context.DeadlineExceeded, c.cause.err)
	}
	for _, it := range p.ops {
		n.ends = append(n.ends, it.ends...)
		if p.finishes && !a.isOver {
			it.err = ErrUnfinished
		}
	}
	for _, c := range p.ends {
		s.noteFailure(c)
	}
	s.takeFirsts(p.firsts, a.firsts)
	for _, c := range p.ends {
		s.takeRecorded(n, c, a)
	}
	for _, it := range a.rebounds {
		s.bind(s.plan.command(it.command), it)
	}
	if len(a.stands) > 0 {
		for number, c := range s.plan.commands {
			s.takeStanding(n, c, a.stands[number])
		}
	}
	for _, it := range a.stops {
		s.takeStop(n, it)
	}
	for _, it := range a.begins {
		s.takeBegin(n, it)
	}
	s.later = a.later
	s.isOver = a.isOver
	return n
}

// bind gives a command the task of its try.
func (s *Store) bind(c *command, it begun) {
	s.used++
	if c == nil {
		return
	}
	delete(s.plan.running, c.task)
	c.task, c.try = it.task, tryName{it.group, it.key, it.try}
	s.plan.running[it.task] = c
}

// takeStop asks a function to stop. Mostly its context ends by the same answer, and has the very
// error of which the program has the text.
func (s *Store) takeStop(n *news, it stop) {
	c := s.plan.running[it.task]
	if c == nil {
		return
	}
	c.why = reason{errorOf(it.why), it.why}
	n.ends = append(n.ends, func() {
		s.mu.Lock()
		if why := c.group.ctx.reason(); why.err != nil && c.phase == isRunning {
			c.why = why
		}
		cancel, why := c.cancel, c.why.err
		s.mu.Unlock()
		if cancel != nil {
			cancel(why)
		}
	})
}

// takeBegin begins a command, if it wasn't left to the next run meanwhile.
func (s *Store) takeBegin(n *news, it begun) {
	c := s.plan.command(it.command)
	s.bind(c, it)
	if c == nil || c.phase != isWaiting {
		return
	}
	c.phase = isRunning
	c.why = reason{}
	if local := s.localCause(c); local != nil {
		n.outcomes = append(n.outcomes, s.leave(c, local))
		return
	}
	s.functions.Add(1)
	n.begun = append(n.begun, c)
	n.results = append(n.results, line{Night: s.results.night, Group: c.group.name, Key: c.key,
		Try: c.try.number, Is: lineBegun})
}
