package pokhnier

import (
	"context"
	"errors"
	"fmt"
	"os"
	"sync"
)

// A Store is an open store. Its methods may be called from several goroutines.
type Store struct {
	path, program string
	root          *Ctx
	unwatch       func() bool // of the context given to Open
	functions     sync.WaitGroup
	wake, ended   chan struct{}
	closing       sync.Once
	closed        error
	lock          *os.File
	valuing       sync.Mutex

	session *session // of the pump alone

	mu       sync.Mutex
	past     *past
	results  *results
	failures map[string][]failure
	firsts   map[string]failure // of the groups that have a first error
	left     map[taskKey]error  // why a task was left to the next run
	finals   map[taskKey]error  // of tasks that failed or were canceled in this run
	plan     plan
	rooms    map[string]*room
	roomList []*room
	open     map[*command]struct{}
	isOpen   map[taskKey]bool
	order    int
	pools    int
	used     int // rows of the store for tasks
	groups   int // rows of the store for groups
	todo     todo
	ctxs     map[*Ctx]struct{} // that haven't ended
	dated    map[*Ctx]struct{} // of these, those with a deadline
	named    map[string][]*Ctx
	clock    int64 // that the program has
	later    int64 // when it wants to be asked, or 0
	hasLeft  bool
	isOver   bool
	isClosed bool
	cut      error // why this run ends, or nil
	dead     error // why the store can't be asked any more, or nil
}

// Open opens the store at a path, and makes it if there is none. The context is this run of the
// program: when it is done, the contexts of the functions end with ErrInterrupted, nothing else
// begins, and what they leave undone is left to the next run. Nothing is canceled for good by it.
func Open(run context.Context, path string) (*Store, error) {
	program, err := findNight()
	if err != nil {
		return nil, err
	}
	if path, err = wholePath(path); err != nil {
		return nil, err
	}
	lock, err := lockClient(run, path+".client")
	if err != nil {
		return nil, err
	}
	if err := ensureStore(program, path); err != nil {
		lock.Close()
		return nil, err
	}
	s := newStore(path, program, lock)
	if err := s.begin(run); err != nil {
		s.closeFiles()
		return nil, err
	}
	s.root = newCtx(s, "root", context.WithoutCancel(run), nil, false)
	s.ctxs[s.root] = struct{}{}
	interrupt := func() {
		s.interrupt(fmt.Errorf("%w: %w", ErrInterrupted, context.Cause(run)))
	}
	s.unwatch = context.AfterFunc(run, interrupt)
	if run.Err() != nil {
		interrupt()
	}
	go s.pump()
	return s, nil
}

func newStore(path, program string, lock *os.File) *Store {
	return &Store{path: path, program: program, lock: lock, wake: make(chan struct{}, 1),
		ended: make(chan struct{}), finals: map[taskKey]error{}, firsts: map[string]failure{},
		left: map[taskKey]error{}, rooms: map[string]*room{}, open: map[*command]struct{}{},
		isOpen: map[taskKey]bool{}, ctxs: map[*Ctx]struct{}{}, dated: map[*Ctx]struct{}{},
		named: map[string][]*Ctx{}}
}

// Root returns the context above all others of the store. It ends with this run alone.
func (s *Store) Root() context.Context { return s.root }

// Night returns the number of the night.
func (s *Store) Night() int {
	s.mu.Lock()
	defer s.mu.Unlock()
	return s.past.night
}

// Err returns why the store can't be asked any more, or nil.
func (s *Store) Err() error {
	s.mu.Lock()
	defer s.mu.Unlock()
	return s.dead
}

// Close ends this run. It ends the contexts of the functions that still run, and waits for them,
// since another program may open the store next. The night stays: the next Open goes on with it.
func (s *Store) Close() error {
	s.closing.Do(func() { s.closed = s.endRun() })
	return s.closed
}

func (s *Store) endRun() error {
	s.unwatch()
	s.interrupt(ErrInterrupted)
	s.functions.Wait()
	s.mu.Lock()
	s.isClosed = true
	s.mu.Unlock()
	s.wakeUp()
	<-s.ended
	defer s.closeFiles()
	s.mu.Lock()
	dead := s.dead
	s.mu.Unlock()
	if dead != nil {
		return dead
	}
	if err := s.session.end(); err != nil && !wasKilled(err) {
		return err
	}
	return nil
}

// closeFiles closes the results, and then gives the lock back.
func (s *Store) closeFiles() {
	if s.results != nil {
		s.results.file.Close()
	}
	s.lock.Close()
}

// Finish ends the night, and closes the store. The next Open begins another night, in which all
// names are new. While a task is open, or was interrupted and not called again, it returns
// ErrUnfinished, and the night stays.
func (s *Store) Finish() error {
	s.mu.Lock()
	if err := s.refusal(); err != nil {
		s.mu.Unlock()
		return err
	}
	if len(s.open) > 0 || s.hasLeft || s.hasInterrupted() {
		s.mu.Unlock()
		return ErrUnfinished
	}
	s.isClosed = true
	o := &op{isDone: make(chan struct{})}
	s.todo.finishes = true
	s.todo.ops = append(s.todo.ops, o)
	s.mu.Unlock()
	s.wakeUp()
	<-o.isDone
	return errors.Join(o.err, s.Close())
}

func (s *Store) hasInterrupted() bool {
	for _, row := range s.past.tasks {
		if row.phase == phaseInterrupted {
			return true
		}
	}
	return false
}

// interrupt ends this run for its functions.
func (s *Store) interrupt(why error) {
	reason := reasonOf(why)
	s.mu.Lock()
	if s.cut != nil {
		s.mu.Unlock()
		return
	}
	s.cut = why
	outcomes := s.leaveWaiting(nil, why)
	var live []*Ctx
	for c := range s.ctxs {
		live = append(live, c)
	}
	for _, r := range s.roomList {
		if r.pool > 0 && r.number >= 0 {
			s.todo.sizes = append(s.todo.sizes, r)
		}
	}
	s.mu.Unlock()
	s.wakeUp()
	for _, c := range live {
		c.end(context.Canceled, reason, true)
	}
	for _, it := range outcomes {
		it.give()
	}
}

// refusal returns why nothing more can be asked for, or nil. The mutex is held.
func (s *Store) refusal() error {
	switch {
	case s.dead != nil:
		return s.dead
	case s.cut != nil:
		return s.cut
	case s.isClosed:
		return ErrInterrupted
	}
	return nil
}
