package pokhnier

import (
	"fmt"
	"time"
)

// A todo is what the next round says.
type todo struct {
	pools    int
	rooms    []*room
	commands []*command
	ends     []*command
	dones    []done
	sizes    []*room
	ops      []*op
	asks     bool // how the commands stand
	finishes bool
}

var nothing todo

func (t *todo) isEmpty() bool {
	lines := t.pools + len(t.rooms) + len(t.commands) + len(t.ends) + len(t.dones) + len(t.sizes)
	return lines+len(t.ops) == 0 && !t.asks && !t.finishes
}

// A done cancels a group.
type done struct {
	room *room
	why  reason
}

// An op waits until the round after its call is durable.
type op struct {
	ends   []func() // of contexts
	first  *room    // whose first error it asks for, or nil
	err    error
	isDone chan struct{}
}

// do waits until the next round is durable.
func (s *Store) do(o *op) error {
	o.isDone = make(chan struct{})
	s.mu.Lock()
	if err := s.refusal(); err != nil {
		s.mu.Unlock()
		return err
	}
	s.todo.ops = append(s.todo.ops, o)
	s.mu.Unlock()
	s.wakeUp()
	<-o.isDone
	return o.err
}

// A part is a round: its lines, and what they are about.
type part struct {
	lines    []string
	results  []line
	ends     []*command
	dones    []done
	due      []*Ctx // whose deadlines have come
	firsts   []*room
	ops      []*op
	finishes bool
}

// nextPart returns the next round. The mutex is held.
func (s *Store) nextPart() *part {
	p, todo := &part{}, s.todo
	s.todo = nothing
	for ; todo.pools > 0; todo.pools-- {
		p.lines = append(p.lines, poolLine)
	}
	for _, r := range todo.rooms {
		p.lines = append(p.lines, s.plan.addRoom(r)...)
	}
	for _, c := range todo.commands {
		if c.phase == isWaiting {
			p.lines = append(p.lines, s.plan.addCommand(c)...)
		}
	}
	s.addEnds(p, todo.ends)
	s.addDue(p)
	s.addDones(p, todo.dones)
	for _, r := range todo.sizes {
		p.lines = append(p.lines, r.size(s.cut != nil))
	}
	p.ops = todo.ops
	for _, it := range p.ops {
		p.askFirst(it.first)
	}
	if p.finishes = todo.finishes; p.finishes {
		p.lines = append(p.lines, "done 0 finished")
	}
	if todo.asks || len(p.dones)+len(p.due) > 0 || p.hasFailure() {
		p.lines = append(p.lines, "standings")
	}
	p.addFirsts()
	return p
}

// askFirst asks for the first error of a group once.
func (p *part) askFirst(r *room) {
	for _, it := range p.firsts {
		if it == r {
			return
		}
	}
	if r != nil {
		p.firsts = append(p.firsts, r)
	}
}

func (p *part) addFirsts() {
	for _, r := range p.firsts {
		p.lines = append(p.lines, fmt.Sprintf("first %d", r.number))
	}
}

// addEnds adds the ends of commands. Of a group that a failure cancels it adds one failure: those
// after it are recorded as canceled, so that the first one is known in each later run.
func (s *Store) addEnds(p *part, ends []*command) {
	failed := map[*room]bool{}
	for _, c := range ends {
		r := c.group.room
		if c.isFailure() && r.way == wayCancel {
			if failed[r] {
				s.todo.ends = append(s.todo.ends, c)
				continue
			}
			failed[r] = true
		}
		if s.asksFirst(c) {
			p.askFirst(r)
		}
		p.addEnd(s.results.night, c)
	}
}

func (p *part) addEnd(night int, c *command) {
	line := fmt.Sprintf("ended %d ok", c.task)
	if c.err != nil {
		line = fmt.Sprintf("ended %d error %s", c.task, textOf(c.text))
	}
	p.results = append(p.results, c.line(night))
	p.lines = append(p.lines, line)
	p.ends = append(p.ends, c)
}

// line returns the line that the results have of the end of a command.
func (c *command) line(night int) line {
	it := line{Night: night, Group: c.group.name, Key: c.key, Try: c.try.number, Is: lineOK}
	if c.err == nil {
		it.Value = c.result
		return it
	}
	text := c.text
	if it.Is = lineError; c.why.err != nil {
		it.Is, text = lineCanceled, c.why.text
	}
	it.Text = &text
	return it
}

// addDue adds the time, if it has changed, and finds the deadlines that have come.
func (s *Store) addDue(p *part) {
	now := time.Now().Unix()
	if now > s.clock {
		s.clock = now
		p.lines = append(p.lines, fmt.Sprintf("now %d", now))
	}
	if s.later <= s.clock {
		s.later = 0
	}
	for c := range s.dated {
		if c.moment <= s.clock {
			p.due = append(p.due, c)
			s.addDones(p, s.donesBelow(c, c.cause))
		}
	}
}

// addDones adds cancels of groups. The results have the full text of each cause.
func (s *Store) addDones(p *part, dones []done) {
	for _, it := range dones {
		if it.room.number < 0 { // it comes in the next round, and so does this
			s.todo.dones = append(s.todo.dones, it)
			continue
		}
		text := it.why.text
		p.results = append(p.results, line{Night: s.results.night, Group: it.room.name,
			Is: lineCanceled, Text: &text})
		p.lines = append(p.lines, fmt.Sprintf("done %d %s", it.room.number, textOf(text)))
		p.dones = append(p.dones, it)
	}
}

func (p *part) hasFailure() bool {
	for _, c := range p.ends {
		if c.err != nil {
			return true
		}
	}
	return false
}
