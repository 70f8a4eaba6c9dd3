package pokhnier

import (
	"context"
	"errors"
	"path/filepath"
	"sync/atomic"
	"syscall"
	"testing"
	"time"
)

var errDisk = errors.New("disk full")

func fresh(t *testing.T) string {
	t.Helper()
	return filepath.Join(t.TempDir(), "store")
}

func open(t *testing.T, path string) *Store {
	t.Helper()
	s, err := Open(context.Background(), path)
	if err != nil {
		t.Fatal(err)
	}
	return s
}

// killNight kills the program, as a crash of it would.
func (s *Store) killNight() {
	s.mu.Lock()
	defer s.mu.Unlock()
	s.session.command.Process.Kill()
}

// crash ends a run as kill -9 of both programs would: nothing more is recorded.
func (s *Store) crash() {
	s.unwatch()
	s.mu.Lock()
	s.dead = errors.New("crashed")
	s.isClosed = true
	s.todo = nothing
	s.mu.Unlock()
	s.killNight()
	s.wakeUp()
	<-s.ended
	s.session.end()
	s.lock.Close()
}

// The waits of these tests are for something that happens, and not for some time: the machine may be
// slow, and its processors busy.
const longest = time.Minute

// until waits until something is so.
func until(t *testing.T, what string, isSo func() bool) {
	t.Helper()
	for end := time.Now().Add(longest); !isSo(); time.Sleep(time.Millisecond) {
		if time.Now().After(end) {
			t.Fatalf("it never comes: %s", what)
		}
	}
}

// until waits until something is so in a store.
func (s *Store) until(t *testing.T, what string, isSo func() bool) {
	t.Helper()
	until(t, what, func() bool {
		s.mu.Lock()
		defer s.mu.Unlock()
		return isSo()
	})
}

// awaitOK waits until the good end of a task is durable.
func (s *Store) awaitOK(t *testing.T, group, key string) {
	t.Helper()
	s.until(t, "the end of "+key, func() bool {
		row := s.past.tasks[taskKey{group, key}]
		return row != nil && row.phase == phaseOK
	})
}

// awaitRound waits until all that was asked for is in a round.
func (s *Store) awaitRound(t *testing.T) {
	t.Helper()
	s.until(t, "a round", func() bool { return s.todo.isEmpty() })
}

// awaitReport waits until the end of a function is in a round.
func (s *Store) awaitReport(t *testing.T, key string) {
	t.Helper()
	s.until(t, "the report of "+key, func() bool {
		for c := range s.open {
			if c.key == key {
				return c.phase == hasEnded && s.todo.isEmpty()
			}
		}
		return false
	})
}

// pauseNight stops the program before its next answer, and returns what lets it go on. The program
// has several threads. The signal stops one of them, which stops the others once a processor runs
// it, and until then they go on.
func (s *Store) pauseNight(t *testing.T) func() {
	t.Helper()
	s.mu.Lock()
	process := s.session.command.Process
	s.mu.Unlock()
	process.Signal(syscall.SIGSTOP)
	const isPid = 1
	_, _, why := syscall.Syscall6(syscall.SYS_WAITID, isPid, uintptr(process.Pid), 0,
		syscall.WSTOPPED|syscall.WNOWAIT, 0, 0)
	if why != 0 {
		t.Errorf("the program doesn't stop: %v", why)
	}
	return func() { process.Signal(syscall.SIGCONT) }
}

func returns(err error) func(context.Context) error {
	return func(context.Context) error { return err }
}

func counts(n *atomic.Int32) func(context.Context) error {
	return func(context.Context) error { n.Add(1); return nil }
}

func mustNotRun(t *testing.T) func(context.Context) error {
	return func(context.Context) error { t.Error("runs again"); return nil }
}

// A hanging function begins, and doesn't end before the test does.
type hanging struct {
	began chan struct{}
	ends  chan struct{}
}

func newHanging(t *testing.T) *hanging {
	h := &hanging{make(chan struct{}), make(chan struct{})}
	t.Cleanup(func() { close(h.ends) })
	return h
}

func (h *hanging) run(context.Context) error {
	close(h.began)
	<-h.ends
	return nil
}
