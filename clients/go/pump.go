package pokhnier

import (
	"context"
	"fmt"
	"runtime"
	"time"
)

// The pump is the goroutine that talks with `night drive`. All that is called while a round is
// under way goes into the next one, and shares its syncs.

func (s *Store) wakeUp() {
	select {
	case s.wake <- struct{}{}:
	default:
	}
}

func (s *Store) pump() {
	defer close(s.ended)
	for s.awaitWork() {
		s.turn()
	}
}

// awaitWork waits until there is something to say. It returns false once the store is closed, and
// all is said.
func (s *Store) awaitWork() bool {
	for {
		runtime.Gosched() // others that are about to call something share this round
		s.mu.Lock()
		wait, isLast, isOver := s.untilWork(), s.isClosed, s.isOver
		s.mu.Unlock()
		if isOver {
			return false
		}
		if wait <= 0 {
			return true
		}
		if isLast {
			return false
		}
		timer := time.NewTimer(wait)
		select {
		case <-s.wake:
		case <-timer.C:
		}
		timer.Stop()
	}
}

// untilWork returns how long there will be nothing to say. The mutex is held.
func (s *Store) untilWork() time.Duration {
	wait := time.Hour
	switch {
	case s.dead != nil:
		return wait
	case !s.todo.isEmpty():
		return 0
	case s.later > 0:
		wait = untilMoment(s.later)
	}
	for c := range s.dated {
		wait = min(wait, untilMoment(c.moment))
	}
	return wait
}

// untilMoment returns how long a timer may wait for a moment. It isn't more than a second, since
// timers stop while the machine sleeps, and don't notice when its clock is set.
func untilMoment(moment int64) time.Duration {
	return min(time.Until(time.Unix(moment, 0)), time.Second)
}

// turn says what there is to say. If the session is lost, another one is opened.
func (s *Store) turn() {
	for lost := 0; ; lost++ {
		s.mu.Lock()
		p := s.nextPart()
		s.mu.Unlock()
		err := s.round(p)
		if err == nil {
			return
		}
		s.mu.Lock()
		s.putBack(p)
		s.mu.Unlock()
		if err = s.endLost(err); isLost(err) && lost < mostLost {
			err = s.begin(context.Background()) // also for the good ends of a run that ends
		}
		if err != nil {
			s.die(err)
			return
		}
		if s.isOver {
			s.giveOver()
			return
		}
	}
}

// giveOver tells Finish that the night is over, though the session that ended it was lost.
func (s *Store) giveOver() {
	s.mu.Lock()
	ops := s.todo.ops
	s.todo = todo{}
	s.mu.Unlock()
	for _, it := range ops {
		close(it.isDone)
	}
}

// putBack puts what wasn't answered into the next round. (Rooms and commands are in the next plan.)
func (s *Store) putBack(p *part) {
	s.todo.ends = append(p.ends, s.todo.ends...)
	s.todo.dones = append(p.dones, s.todo.dones...)
	s.todo.ops = append(p.ops, s.todo.ops...)
	s.todo.finishes = s.todo.finishes || p.finishes
	s.clock = 0
}

// die ends this run, since the store can't be asked any more.
func (s *Store) die(why error) {
	if isLost(why) {
		why = fmt.Errorf("%w: %w", ErrLost, why)
	}
	s.mu.Lock()
	s.dead = why
	ops := s.todo.ops
	s.todo = todo{}
	var outcomes []outcome
	for c := range s.open { // in whichever part its end is
		if c.phase == hasEnded {
			outcomes = append(outcomes, s.leave(c, why))
		}
	}
	s.mu.Unlock()
	s.interrupt(why)
	for _, it := range outcomes {
		it.give()
	}
	for _, it := range ops {
		it.err = why
		close(it.isDone)
	}
}
