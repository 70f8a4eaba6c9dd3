package pokhnier

import "fmt"

// add calls a task, or takes the outcome that it has already. With isTry it does so only if the
// limit allows it, and reports that.
func (g *Group) add(c *command, isTry bool) bool {
	s := g.s
	s.mu.Lock()
	if isTry && g.isFull() && !s.hasOutcome(taskKey{g.name, c.key}) {
		s.mu.Unlock()
		return false
	}
	g.open.Add(1)
	now, err := s.call(c)
	s.mu.Unlock()
	if err != nil {
		g.failed(err)
	}
	if now != nil {
		now.give()
	}
	s.wakeUp()
	return true
}

func (g *Group) isFull() bool {
	return g.room != nil && g.room.limit >= 0 && g.room.active >= g.room.limit
}

func (s *Store) hasOutcome(named taskKey) bool {
	row := s.past.tasks[named]
	_, is := s.finals[named]
	return is || row != nil && row.phase == phaseOK
}

// call puts a task into the plan. If it has an outcome already, or can't be asked for, that is
// returned. The mutex is held.
func (s *Store) call(c *command) (*outcome, error) {
	g, named := c.group, taskKey{c.group.name, c.key}
	if g.called[c.key] || s.isOpen[named] {
		err := fmt.Errorf("%w: %s %s", ErrTwice, g.name, c.key)
		return &outcome{c, nil, err}, err
	}
	g.called[c.key] = true
	row := s.past.tasks[named]
	if row != nil && row.phase == phaseOK {
		return &outcome{c, s.results.values[named].Value, nil}, nil
	}
	if err, is := s.finals[named]; is {
		return &outcome{c, nil, err}, nil
	}
	if why, is := s.left[named]; is {
		return s.leftOutcome(c, why), nil // the program has it in its plan already
	}
	if err := s.refusal(); err != nil {
		return s.leftOutcome(c, err), nil
	}
	if err := g.ctx.localCause(); err != nil {
		return s.leftOutcome(c, err), nil
	}
	if s.used+len(s.open)+2 > s.past.room { // with another task for each that runs, if night dies
		return &outcome{c, nil, ErrFull}, ErrFull
	}
	if err := s.ensureRoom(g); err != nil {
		return &outcome{c, nil, err}, err
	}
	s.plant(c, row)
	return nil, nil
}

// plant puts a command into the next round.
func (s *Store) plant(c *command, row *pastTask) {
	g := c.group
	s.order++
	c.order = s.order
	g.room.active++
	s.open[c] = struct{}{}
	s.isOpen[taskKey{g.name, c.key}] = true
	s.todo.commands = append(s.todo.commands, c)
	if g.ctx.isEndedAbove() && !g.room.isDone {
		s.todo.dones = append(s.todo.dones, done{g.room, g.ctx.reason()})
	}
	s.todo.asks = s.todo.asks || g.ctx.Err() != nil || row != nil && row.phase == phaseFailed
}

func (s *Store) leftOutcome(c *command, why error) *outcome {
	if c.group.left == nil {
		c.group.left = why
	}
	s.hasLeft = true
	return &outcome{c, nil, why}
}
