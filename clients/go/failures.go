package pokhnier

// A failure is how the last try of a task has failed, in this run or in an earlier one. The program
// decides which one is the first of a group: it says the text of that one.
type failure struct {
	key, text string // the text as the store has it
	err       error
}

// noteFailure takes the end of a command: only the last try of a task counts.
func (s *Store) noteFailure(c *command) {
	var left []failure
	for _, it := range s.failures[c.group.name] {
		if it.key != c.key {
			left = append(left, it)
		}
	}
	if c.isFailure() {
		left = append(left, failure{c.key, textOf(c.text), c.err})
	}
	s.failures[c.group.name] = left
}

// isFailure reports whether the function of a command has failed, and wasn't canceled.
func (c *command) isFailure() bool { return c.err != nil && c.why.err == nil }

// asksFirst reports whether the first error of a group may change with the end of a command.
func (s *Store) asksFirst(c *command) bool {
	for _, it := range s.failures[c.group.name] {
		if it.key == c.key {
			return true
		}
	}
	return c.isFailure()
}

// takeFirsts takes the first errors of groups.
func (s *Store) takeFirsts(asked []*room, texts map[int]string) {
	for _, r := range asked {
		delete(s.firsts, r.name)
		if text, is := texts[r.number]; is {
			s.firsts[r.name] = s.failureWith(r.name, text)
		}
	}
}

// failureWith returns the failure of a group that has this text in the store.
func (s *Store) failureWith(group, text string) failure {
	for _, it := range s.failures[group] {
		if it.text == text {
			return it
		}
	}
	return failure{"", text, errorOf(text)}
}

// firstOf returns the first error of a group, or nil. A failure whose retry is left to the next run
// isn't one yet. The mutex is held.
func (s *Store) firstOf(g *Group) error {
	first := s.firsts[g.name]
	if s.left[taskKey{g.name, first.key}] != nil {
		return nil
	}
	return first.err
}

// askFirst asks for the first error of a group that has failed in an earlier run.
func (g *Group) askFirst() error {
	s := g.s
	s.mu.Lock()
	if s.firsts[g.name].err != nil || len(s.failures[g.name]) == 0 {
		s.mu.Unlock()
		return nil
	}
	err := s.ensureRoom(g)
	s.mu.Unlock()
	if err != nil {
		return err
	}
	return s.do(&op{first: g.room})
}

// pastFailures returns the failures of earlier runs. If two have the same text in the store, the
// one comes first whose line in the results does. The mutex is held.
func (s *Store) pastFailures() map[string][]failure {
	all := map[string][]failure{}
	seen := map[taskKey]bool{}
	add := func(named taskKey, row *pastTask) {
		if !seen[named] && row != nil && row.hasFailed() {
			seen[named] = true
			it := failure{named.key, row.text, s.pastError(named, row)}
			all[named.group] = append(all[named.group], it)
		}
	}
	for _, it := range s.results.errors {
		named := taskKey{it.Group, it.Key}
		if row := s.past.tasks[named]; row != nil && row.last.number == it.Try {
			add(named, row)
		}
	}
	for _, named := range s.past.order {
		add(named, s.past.tasks[named])
	}
	return all
}

// pastError returns the error of a task that failed in an earlier run.
func (s *Store) pastError(named taskKey, row *pastTask) error {
	if row == nil {
		return ErrNotRun
	}
	if text, is := s.results.text(named, row.last.number); is {
		return errorOf(text)
	}
	return errorOf(row.text)
}
