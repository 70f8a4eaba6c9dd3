package pokhnier

import (
	"context"
	"encoding/json"
	"errors"
	"fmt"
	"os"
	"os/signal"
	"path/filepath"
	"runtime"
	"runtime/debug"
	"strings"
	"sync"
	"sync/atomic"
	"syscall"
	"testing"
	"time"
)

// within fails if something hangs.
func within(t *testing.T, what string, f func()) {
	t.Helper()
	done := make(chan struct{})
	go func() {
		defer close(done)
		f()
	}()
	select {
	case <-done:
	case <-time.After(longest):
		t.Fatalf("%s: it hangs", what)
	}
}

// Package context calls AfterFunc under a mutex that the function takes.
func TestAfterFuncIsCalledUnderAMutex(t *testing.T) {
	s := open(t, fresh(t))
	defer s.Close()
	c := Scope(s.Root(), "c")
	c.Cancel(errDisk)
	var mu sync.Mutex
	called := make(chan struct{})
	within(t, "AfterFunc", func() {
		mu.Lock()
		c.AfterFunc(func() { mu.Lock(); close(called) })
		mu.Unlock()
		<-called
	})
}

func TestAnAfterFuncMayWaitForTheStore(t *testing.T) {
	s := open(t, fresh(t))
	a, b := Scope(s.Root(), "a"), Scope(s.Root(), "b")
	done := make(chan error, 1)
	a.AfterFunc(func() { done <- b.Cancel(errDisk) })
	within(t, "Cancel", func() {
		if err := a.Cancel(errDisk); err != nil {
			t.Error(err)
		}
		if err := <-done; err != nil || context.Cause(b) != errDisk {
			t.Error(err, context.Cause(b))
		}
		s.Close()
	})
}

// A failure is being recorded, whose retry comes in an hour, and this run ends.
func TestARetryDoesntOutliveItsRun(t *testing.T) {
	run, stop := context.WithCancel(context.Background())
	s, err := Open(run, fresh(t))
	if err != nil {
		t.Fatal(err)
	}
	g := s.Group(s.Root(), "g", Retries(1, time.Hour))
	g.SetLimit(1)
	goesOn := make(chan func(), 1)
	g.Go("a", func(context.Context) error {
		goesOn <- s.pauseNight(t)
		return errDisk
	})
	resume := <-goesOn
	s.awaitReport(t, "a")
	stop()
	<-s.Root().Done()
	resume()
	within(t, "Wait", func() {
		if err := g.Wait(); !errors.Is(err, ErrInterrupted) {
			t.Error(err)
		}
		s.Close()
	})
}

// A task of a request that has ended is left to the next run. Another request calls it again.
func TestATaskThatWasLeftIsCalledAgain(t *testing.T) {
	path := fresh(t)
	s := open(t, path)
	for i, text := range []string{"the first request", "the second one"} {
		request, end := context.WithCancelCause(context.Background())
		g := s.Group(s.On(request), "g")
		g.Go("a", func(ctx context.Context) error {
			if i > 0 {
				t.Error("runs again in this run")
			}
			end(errors.New(text))
			<-ctx.Done()
			return ctx.Err()
		})
		if err := g.Wait(); err == nil || err.Error() != "the first request" {
			t.Errorf("%s: %v", text, err)
		}
		end(nil)
	}
	other := s.Group(s.Root(), "other")
	other.Go("b", returns(nil))
	if err := other.Wait(); err != nil || s.Err() != nil {
		t.Error(err, s.Err())
	}
	s.Close()
	s = open(t, path)
	defer s.Close()
	g := s.Group(s.Root(), "g")
	var ran atomic.Int32
	g.Go("a", counts(&ran))
	if err := g.Wait(); err != nil || ran.Load() != 1 {
		t.Error(err, ran.Load())
	}
}

func TestTwoStores(t *testing.T) {
	one, two := open(t, fresh(t)), open(t, fresh(t))
	defer one.Close()
	defer two.Close()
	g := two.Group(one.Root(), "g")
	g.Go("a", returns(nil))
	plain := two.Group(context.Background(), "plain")
	plain.Go("b", returns(nil))
	if err := errors.Join(g.Wait(), plain.Wait()); err != nil {
		t.Error(err)
	}
	for _, it := range []taskKey{{"g", "a"}, {"plain", "b"}} {
		if one.past.tasks[it] != nil || two.past.tasks[it] == nil {
			t.Error(it, "is in the wrong store")
		}
	}
}

// A disk that is full in the middle of a line: first over the result of a function, then over the
// beginning of one.
func TestAFullDisk(t *testing.T) {
	signal.Ignore(syscall.SIGXFSZ)
	for _, text := range []string{strings.Repeat("x", 2000), ""} {
		path := fresh(t)
		s := open(t, path)
		g, ctx := WithContext(s.Root(), "g")
		var was syscall.Rlimit
		syscall.Getrlimit(syscall.RLIMIT_FSIZE, &was)
		limit := was
		limit.Cur = 100
		if text == "" {
			limit.Cur = 20
		}
		syscall.Setrlimit(syscall.RLIMIT_FSIZE, &limit)
		future := Do(g, "a", func(context.Context) (string, error) { return text, nil })
		within(t, "a full disk", func() {
			if _, err := future.Get(); !errors.Is(err, ErrLost) || !errors.Is(err, syscall.EFBIG) {
				t.Error(err)
			}
			if err := g.Wait(); !errors.Is(err, ErrLost) || !errors.Is(s.Err(), ErrLost) {
				t.Error(err, s.Err())
			}
			<-ctx.Done()
			s.Close()
		})
		syscall.Setrlimit(syscall.RLIMIT_FSIZE, &was)
		s = open(t, path)
		g, _ = WithContext(s.Root(), "g")
		got, err := Do(g, "a", func(context.Context) (string, error) { return "y", nil }).Get()
		if got != "y" || err != nil {
			t.Error(got, err)
		}
		s.Close()
	}
}

// nightThat makes a program that runs a script in place of some subcommands of night.
func nightThat(t *testing.T, cases string) {
	t.Helper()
	whole, err := findNight()
	if err != nil {
		t.Fatal(err)
	}
	script := fmt.Sprintf("#!/bin/sh\ncase $1 in %s esac\nexec %q \"$@\"\n", cases, whole)
	path := filepath.Join(t.TempDir(), "night")
	if err := os.WriteFile(path, []byte(script), 0o777); err != nil {
		t.Fatal(err)
	}
	t.Setenv("NIGHT", path)
}

func openFiles() int {
	all, _ := os.ReadDir("/proc/self/fd")
	return len(all)
}

func TestNothingIsLeftOpen(t *testing.T) {
	defer debug.SetGCPercent(debug.SetGCPercent(-1)) // it would close what is left open
	path := fresh(t)
	open(t, path).Close()
	files, goroutines := openFiles(), runtime.NumGoroutine()
	for i := 0; i < 10; i++ {
		s := open(t, path)
		Scope(s.Root(), "c", Timeout(time.Hour, nil))
		g, _ := WithContext(s.Root(), "g")
		g.Go("a", returns(nil))
		s.killNight()
		g.Wait()
		s.Close()
	}
	nightThat(t, "inspect) exit 1 ;;")
	for i := 0; i < 10; i++ {
		if _, err := Open(context.Background(), path); err == nil {
			t.Error("it opens")
		}
	}
	os.WriteFile(path, []byte("no store"), 0o600)
	for i := 0; i < 10; i++ {
		if _, err := Open(context.Background(), path); err == nil {
			t.Error("it opens")
		}
	}
	// (What has ended may take a moment until it is gone.)
	until(t, "the end of all files", func() bool { return openFiles() <= files+1 })
	until(t, "the end of all goroutines", func() bool {
		return runtime.NumGoroutine() <= goroutines+1
	})
	if left, _ := filepath.Glob(path + ".*new*"); left != nil {
		t.Error(left)
	}
}

func TestNumbersThatAStoreDoesntTake(t *testing.T) {
	s := open(t, fresh(t))
	defer s.Close()
	never := time.Date(9999, 12, 31, 0, 0, 0, 0, time.UTC)
	g, _ := WithContext(Scope(s.Root(), "never", Deadline(never, nil)), "g")
	g.SetLimit(1 << 40)
	g.Go("a", returns(nil))
	past, _ := WithContext(Scope(s.Root(), "long-ago", Deadline(time.Unix(-5, 0), nil)), "past")
	past.Go("a", mustNotRun(t))
	less := s.Group(s.Root(), "less", Retries(-1, -5*time.Hour))
	less.Go("a", returns(nil))
	more := s.Group(s.Root(), "more", Retries(1<<40, 1<<62))
	more.Go("a", returns(nil))
	if err := errors.Join(g.Wait(), less.Wait(), more.Wait()); err != nil || s.Err() != nil {
		t.Error(err, s.Err())
	}
	if err := past.Wait(); !errors.Is(err, context.DeadlineExceeded) {
		t.Error(err)
	}
}

// No function of a group with the limit 0 begins, and TryGo says so.
func TestTheLimitZero(t *testing.T) {
	s := open(t, fresh(t))
	g, _ := WithContext(s.Root(), "g")
	g.SetLimit(0)
	if g.TryGo("a", mustNotRun(t)) {
		t.Error("a task of a group with the limit 0")
	}
	g.Go("b", mustNotRun(t))
	s.awaitRound(t)
	time.Sleep(100 * time.Millisecond)
	s.Close()
	if err := g.Wait(); !errors.Is(err, ErrInterrupted) {
		t.Error(err)
	}
}

// As many tasks wait as a store has room for.
func TestManyTasks(t *testing.T) {
	s := open(t, fresh(t))
	g := s.Group(s.Root(), "g")
	g.SetLimit(0)
	for i := 0; i < 8000; i++ {
		g.Go(fmt.Sprint(i), mustNotRun(t))
	}
	s.awaitRound(t)
	s.Close()
	if err := g.Wait(); !errors.Is(err, ErrInterrupted) || errors.Is(err, ErrFull) {
		t.Error(err)
	}
}

// More groups with a limit than any plan could have pools for, and a night that dies among them.
func TestManyLimits(t *testing.T) {
	s := open(t, fresh(t))
	defer s.Close()
	for i := 0; i < 100; i++ {
		g := s.Group(s.Root(), fmt.Sprint("g", i))
		g.SetLimit(2)
		var now, most atomic.Int32
		for j := 0; j < 5; j++ {
			g.Go(fmt.Sprint(j), func(context.Context) error {
				if it := now.Add(1); it > most.Load() {
					most.Store(it)
				}
				time.Sleep(time.Millisecond)
				now.Add(-1)
				return nil
			})
		}
		if i%30 == 10 {
			s.killNight()
		}
		if err := g.Wait(); err != nil || most.Load() > 2 {
			t.Fatal(i, err, most.Load())
		}
	}
}

// The program changes its folder, and the store is opened by a link.
func TestAStoreIsFoundFromAnotherFolder(t *testing.T) {
	path, elsewhere := fresh(t), t.TempDir()
	was, _ := os.Getwd()
	defer os.Chdir(was)
	os.Chdir(filepath.Dir(path))
	s := open(t, filepath.Base(path))
	os.Chdir(elsewhere)
	s.killNight()
	g := s.Group(s.Root(), "g")
	if got, err := Do(g, "a", gives(7)).Get(); got != 7 || err != nil {
		t.Error(got, err)
	}
	s.Close()
	link := filepath.Join(elsewhere, "link")
	os.Symlink(path, link)
	s = open(t, link)
	defer s.Close()
	g = s.Group(s.Root(), "g")
	if got, err := Do(g, "a", gives(8)).Get(); got != 7 || err != nil {
		t.Error(got, err)
	}
}

func gives(n int) func(context.Context) (int, error) {
	return func(context.Context) (int, error) { return n, nil }
}

func TestThereIsNoNight(t *testing.T) {
	folder := t.TempDir()
	plain := filepath.Join(folder, "plain")
	os.WriteFile(plain, nil, 0o600)
	for _, it := range []string{folder + "/none", folder, plain} {
		t.Setenv("NIGHT", it)
		if _, err := Open(context.Background(), fresh(t)); err == nil ||
			!strings.Contains(err.Error(), "NIGHT") || !strings.Contains(err.Error(), it) {
			t.Error(it, err)
		}
	}
	old := filepath.Join(folder, "old")
	script := "#!/bin/sh\n[ $1 = format ] && : > $3 && exit\necho usage >&2\nexit 2\n"
	os.WriteFile(old, []byte(script), 0o700)
	t.Setenv("NIGHT", old)
	var ended *NightError
	if _, err := Open(context.Background(), fresh(t)); !errors.As(err, &ended) ||
		ended.Status != 2 || !strings.Contains(err.Error(), "usage") {
		t.Error(err)
	}
}

// Who waits for a store that is in use gives up when the run ends.
func TestOpenEndsWithItsRun(t *testing.T) {
	path := fresh(t)
	s := open(t, path)
	defer s.Close()
	run, stop := context.WithTimeoutCause(context.Background(), 100*time.Millisecond, errDisk)
	defer stop()
	began := time.Now()
	if _, err := Open(run, path); !errors.Is(err, ErrInterrupted) || !errors.Is(err, errDisk) {
		t.Error(err)
	}
	if time.Since(began) > busyTime/2 {
		t.Error("it waits on")
	}
}

// A slow result asks its store when it is read.
type slow struct{ value int }

var whenRead func()

func (it slow) MarshalJSON() ([]byte, error) { return json.Marshal(it.value) }

func (it *slow) UnmarshalJSON(text []byte) error {
	whenRead()
	return json.Unmarshal(text, &it.value)
}

func TestAResultMayAskTheStore(t *testing.T) {
	s := open(t, fresh(t))
	defer s.Close()
	whenRead = func() {
		g := s.Group(s.Root(), "other")
		g.Go("b", returns(nil))
		g.Wait()
	}
	g := s.Group(s.Root(), "g")
	future := Do(g, "a", func(context.Context) (slow, error) { return slow{3}, nil })
	within(t, "Get", func() {
		for i := 0; i < 2; i++ {
			if got, err := future.Get(); got.value != 3 || err != nil {
				t.Error(got, err)
			}
		}
	})
}

// An asking error asks its store for its text.
type asking struct{ s *Store }

func (it asking) Error() string { return fmt.Sprint("in night ", it.s.Night()) }

func TestAnErrorMayAskTheStore(t *testing.T) {
	s := open(t, fresh(t))
	wrong := asking{s}
	within(t, "an error", func() {
		c := Scope(s.Root(), "c", Timeout(time.Hour, wrong))
		g, _ := WithContext(c, "g")
		g.Go("a", returns(wrong))
		if err := g.Wait(); err != wrong {
			t.Error(err)
		}
		if err := c.Cancel(wrong); err != nil || context.Cause(c) != wrong {
			t.Error(err, context.Cause(c))
		}
		h := s.Group(c, "h")
		h.Go("b", mustNotRun(t))
		if err := h.Wait(); !errors.Is(err, wrong) {
			t.Error(err)
		}
		s.Close()
	})
}

// While a cancel is being recorded, a task is called below it.
func TestATaskBelowACancel(t *testing.T) {
	s := open(t, fresh(t))
	defer s.Close()
	c := Scope(s.Root(), "c")
	g := s.Group(c, "g")
	resume := s.pauseNight(t)
	canceled := make(chan error)
	go func() { canceled <- c.Cancel(errDisk) }()
	s.until(t, "the round of the cancel", func() bool {
		return s.rooms["c"] != nil && s.todo.isEmpty()
	})
	g.Go("a", mustNotRun(t))
	resume()
	if err := <-canceled; err != nil {
		t.Error(err)
	}
	var end *CanceledError
	if err := g.Wait(); !errors.As(err, &end) || end.Cause != errDisk {
		t.Error(err)
	}
}

// Each context of a group ends with its first failure.
func TestTwoContextsOfAGroup(t *testing.T) {
	s := open(t, fresh(t))
	defer s.Close()
	one, ctx := WithContext(s.Root(), "g")
	two, other := WithContext(s.Root(), "g")
	one.Go("a", returns(errDisk))
	within(t, "the other context", func() { <-other.Done() })
	if context.Cause(ctx) != errDisk || context.Cause(other) != errDisk {
		t.Error(context.Cause(ctx), context.Cause(other))
	}
	if err := two.Wait(); err != errDisk {
		t.Error(err)
	}
}

// A failure that is repeated well isn't the error of the group.
func TestARepeatedFailureIsNone(t *testing.T) {
	path := fresh(t)
	for run := 0; run < 2; run++ {
		s := open(t, path)
		g := s.Group(s.Root(), "g", Retries(1, time.Second))
		var tries atomic.Int32
		g.Go("a", func(context.Context) error {
			if tries.Add(1) == 1 {
				return errDisk
			}
			return nil
		})
		if err := g.Wait(); err != nil || run == 0 && tries.Load() != 2 {
			t.Error(run, err, tries.Load())
		}
		s.crash()
	}
}

// A negative limit is none: all functions run at the same time.
func TestALimitIsTakenBack(t *testing.T) {
	s := open(t, fresh(t))
	defer s.Close()
	g, _ := WithContext(s.Root(), "g")
	g.SetLimit(1)
	g.SetLimit(-5)
	var all sync.WaitGroup
	all.Add(3)
	for i := 0; i < 3; i++ {
		g.Go(fmt.Sprint(i), func(context.Context) error {
			all.Done()
			all.Wait()
			return nil
		})
	}
	within(t, "Wait", func() {
		if err := g.Wait(); err != nil {
			t.Error(err)
		}
	})
}

// A result that is no JSON is an error, in each run.
func TestAResultThatIsNoJSON(t *testing.T) {
	path := fresh(t)
	for run := 0; run < 2; run++ {
		s := open(t, path)
		g, _ := WithContext(s.Root(), "g")
		_, err := Do(g, "a", func(context.Context) (chan int, error) {
			if run > 0 {
				t.Error("runs again")
			}
			return make(chan int), nil
		}).Get()
		if err == nil || !strings.Contains(err.Error(), "unsupported type") || g.Wait() == nil {
			t.Error(err)
		}
		s.Close()
	}
}
