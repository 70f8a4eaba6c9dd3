package pokhnier

import (
	"context"
	"errors"
	"fmt"
	"io"
	"time"
)

// lostTime is how long a lost session is left alone.
const lostTime = 50 * time.Millisecond

// endLost ends a session that failed. It prefers what the program said at its end to the end of a
// pipe.
func (s *Store) endLost(err error) error {
	ended := s.session.end()
	if ended != nil && errors.Is(err, io.ErrUnexpectedEOF) {
		return ended
	}
	return err
}

// isLost reports whether another session can go on after this error: if the program was killed.
func isLost(err error) bool {
	var ended *NightError
	if errors.As(err, &ended) {
		return ended.Status < 0
	}
	return errors.Is(err, io.ErrUnexpectedEOF)
}

// begin opens a session. While another program has the store, and while the sessions are killed, it
// tries again, unless this run ends.
func (s *Store) begin(run context.Context) error {
	end := time.Now().Add(busyTime)
	for lost := 0; ; {
		err := s.beginOnce()
		switch {
		case err == nil:
			return nil
		case isLost(err):
			lost++
		case !errors.Is(err, ErrInUse) || time.Now().After(end):
			return err
		}
		if lost == mostLost {
			return err
		}
		if ended := pause(run, lostTime); ended != nil {
			return ended
		}
	}
}

func (s *Store) beginOnce() error {
	session, err := openSession(s.program, s.path)
	if err != nil {
		return err
	}
	s.mu.Lock()
	s.session = session
	s.mu.Unlock()
	if err = s.openNight(); err != nil {
		return s.endLost(err)
	}
	if !s.isOver || s.todo.finishes {
		return nil
	}
	// An earlier run was killed while it finished the night, so the next one begins.
	s.isOver, s.past = false, nil
	if err := session.end(); err != nil {
		return err
	}
	return s.beginOnce()
}

// openNight writes the plan, and then the first round: it names the functions that still run, and
// takes what was recorded of the others.
func (s *Store) openNight() error {
	s.mu.Lock()
	lines := s.newPlan()
	s.mu.Unlock()
	lines, err := s.session.ask(lines)
	if lines == nil && err != nil {
		return err
	}
	a, err := readAnswer(lines)
	if err != nil {
		return err
	}
	found, err := s.readNight(a.night)
	if err != nil {
		return err
	}
	s.mu.Lock()
	p, err := s.firstPart(found)
	s.mu.Unlock()
	if err != nil {
		return err
	}
	return s.round(p)
}

// readNight reads what the store has of a night, and meanwhile the results.
func (s *Store) readNight(night int) (*past, error) {
	var opening error
	isOpen := make(chan struct{})
	go func() {
		defer close(isOpen)
		if s.results != nil && s.results.night == night {
			return
		}
		if s.results != nil {
			s.results.file.Close()
		}
		s.results, opening = openResults(s.path+".results", night)
	}()
	found, err := readPast(s.program, s.path, night)
	<-isOpen
	if opening != nil {
		return nil, fmt.Errorf("%w: %w", errResults, opening)
	}
	return found, err
}

// firstPart returns the first round of a session. The mutex is held.
func (s *Store) firstPart(found *past) (*part, error) {
	isFirst := s.past == nil
	s.past, s.used, s.groups, s.clock = found, found.used, found.groups, 0
	if isFirst {
		s.failures = s.pastFailures()
	}
	p := &part{}
	for _, c := range s.openInOrder() {
		if c.phase == isWaiting {
			continue
		}
		phase := ""
		// If a session died before its `rebound` was read, the last try has another name.
		if row := found.tasks[taskKey{c.group.name, c.key}]; row != nil {
			phase, c.try = row.phase, row.last
		}
		switch {
		case phase == phaseInterrupted:
			p.lines = append(p.lines, fmt.Sprintf("lives %s %s %d", c.try.group, c.try.key, c.try.number))
		case c.phase == hasEnded && (phase == phaseOK || phase == phaseFailed):
			p.ends = append(p.ends, c)
			if s.asksFirst(c) {
				p.askFirst(c.group.room)
			}
			s.results.take(c.line(found.night))
		default:
			return nil, fmt.Errorf("%w: the try %s %s %d", ErrOther, c.try.group, c.try.key, c.try.number)
		}
	}
	s.todo.ends = without(s.todo.ends, p.ends)
	p.lines = append(p.lines, "size 0 0")
	for _, r := range s.roomList {
		if 0 < r.pool && r.pool <= s.plan.pools { // later ones come in the next round
			p.lines = append(p.lines, r.size(s.cut != nil))
		}
	}
	s.addDue(p)
	if len(p.ends) > 0 || len(s.open) > 0 {
		p.lines = append(p.lines, "standings")
	}
	p.addFirsts()
	return p, nil
}

func without(all, some []*command) []*command {
	var left []*command
	for _, c := range all {
		isIn := false
		for _, it := range some {
			isIn = isIn || it == c
		}
		if !isIn {
			left = append(left, c)
		}
	}
	return left
}
