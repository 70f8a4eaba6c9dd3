package pokhnier

import (
	"context"
	"errors"
	"fmt"
	"io"
	"os"
	"strings"
	"sync"
	"sync/atomic"
	"testing"
	"time"
)

func TestAGoodEndIsKept(t *testing.T) {
	path := fresh(t)
	for run := 0; run < 3; run++ {
		s := open(t, path)
		g, ctx := WithContext(s.Root(), "g")
		f := returns(nil)
		if run > 0 {
			f = mustNotRun(t)
		}
		g.Go("a", f)
		if err := g.Wait(); err != nil || context.Cause(ctx) != context.Canceled {
			t.Error(err, context.Cause(ctx))
		}
		s.crash()
	}
}

func TestTheFirstErrorOutlivesACrash(t *testing.T) {
	path := fresh(t)
	s := open(t, path)
	g, ctx := WithContext(s.Root(), "g")
	slow := newHanging(t)
	g.Go("slow", slow.run)
	<-slow.began
	long := fmt.Errorf("copy %s: %w", strings.Repeat("x", 100), errDisk)
	g.Go("bad", returns(long))
	<-ctx.Done()
	if got := context.Cause(ctx); got != long {
		t.Errorf("cause %v", got)
	}
	s.crash()
	s = open(t, path)
	defer s.Close()
	g, ctx = WithContext(s.Root(), "g")
	if ctx.Err() != context.Canceled || context.Cause(ctx).Error() != long.Error() {
		t.Errorf("%v, %v", ctx.Err(), context.Cause(ctx))
	}
	g.Go("bad", mustNotRun(t))
	g.Go("slow", mustNotRun(t)) // the group has failed
	err := g.Wait()
	if err == nil || err.Error() != long.Error() {
		t.Errorf("Wait: %v", err)
	}
	if err := s.Finish(); err != nil {
		t.Error(err)
	}
	if !errors.Is(err, errors.New(long.Error())) || errors.Is(err, errDisk) {
		t.Error("two errors with one text are one, and no others")
	}
}

func TestAnInterruptionIsNoError(t *testing.T) {
	path := fresh(t)
	for run := 0; run < 4; run++ {
		s := open(t, path)
		g, ctx := WithContext(s.Root(), "g")
		if ctx.Err() != nil {
			t.Fatalf("run %d: %v", run, ctx.Err())
		}
		if run == 0 {
			g.Go("done", returns(nil))
		} else {
			g.Go("done", mustNotRun(t))
		}
		if run < 3 {
			h := newHanging(t)
			g.Go("hangs", h.run)
			<-h.began
			s.awaitOK(t, "g", "done")
			s.crash()
			continue
		}
		g.Go("hangs", func(ctx context.Context) error {
			if it, _ := TaskOf(ctx); it.Attempt != 3 {
				t.Errorf("%+v", it)
			}
			return nil
		})
		if err := g.Wait(); err != nil {
			t.Error(err)
		}
		s.Close()
	}
}

func TestTheFirstErrorAfterAnInterruption(t *testing.T) {
	path := fresh(t)
	s := open(t, path)
	h := newHanging(t)
	g := s.Group(s.Root(), "g")
	g.Go("hangs", h.run)
	<-h.began
	s.crash()
	s = open(t, path)
	g = s.Group(s.Root(), "g")
	g.Go("x", returns(io.ErrUnexpectedEOF))
	if err := g.Wait(); err != io.ErrUnexpectedEOF {
		t.Error(err)
	}
	g.Go("a", returns(errDisk))
	g.Wait()
	s.crash()
	s = open(t, path)
	defer s.Close()
	g = s.Group(s.Root(), "g")
	g.Go("hangs", returns(nil))
	if err := g.Wait(); !errors.Is(err, io.ErrUnexpectedEOF) {
		t.Error(err)
	}
}

func TestAbandoned(t *testing.T) {
	path := fresh(t)
	s := open(t, path)
	h := newHanging(t)
	g, _ := WithContext(s.Root(), "g")
	g.Go("old-name", h.run)
	<-h.began
	s.crash()
	s = open(t, path)
	defer s.Close()
	g, _ = WithContext(s.Root(), "g")
	g.Go("new-name", returns(nil))
	if err := g.Wait(); !errors.Is(err, ErrAbandoned) || !strings.Contains(err.Error(), "old-name") {
		t.Error(err)
	}
	if err := s.Finish(); err != ErrUnfinished {
		t.Error(err)
	}
}

func TestTwice(t *testing.T) {
	s := open(t, fresh(t))
	defer s.Close()
	g := s.Group(s.Root(), "g")
	g.Go("a", returns(nil))
	g.Go("a", mustNotRun(t))
	if err := g.Wait(); !errors.Is(err, ErrTwice) {
		t.Error(err)
	}
}

func TestRetriesAreTheProgramsOwn(t *testing.T) {
	path := fresh(t)
	s := open(t, path)
	g, _ := WithContext(s.Root(), "g", Retries(2, 0))
	var tries atomic.Int32
	g.Go("a", func(context.Context) error {
		if tries.Add(1) < 3 {
			return errDisk
		}
		return nil
	})
	if err := g.Wait(); err != nil || tries.Load() != 3 {
		t.Error(err, tries.Load())
	}
	g, _ = WithContext(s.Root(), "h", Retries(1, 0))
	g.Go("b", func(context.Context) error { tries.Add(1); return errDisk })
	if err := g.Wait(); err != errDisk || tries.Load() != 5 {
		t.Error(err, tries.Load())
	}
	s.crash()
	s = open(t, path)
	defer s.Close()
	g, ctx := WithContext(s.Root(), "h", Retries(1, 0))
	g.Go("b", mustNotRun(t))
	if err := g.Wait(); err == nil || err.Error() != "disk full" || ctx.Err() == nil {
		t.Error(err)
	}
}

func TestCloseRecordsNoFailure(t *testing.T) {
	path := fresh(t)
	run, stop := context.WithCancel(context.Background())
	s, err := Open(run, path)
	if err != nil {
		t.Fatal(err)
	}
	night := Scope(s.Root(), "the-night")
	g, ctx := WithContext(night, "g")
	g.SetLimit(2)
	var began, ended sync.WaitGroup
	began.Add(2)
	ended.Add(2)
	waits := func(err error) func(context.Context) error {
		return func(ctx context.Context) error {
			began.Done()
			defer ended.Done()
			<-ctx.Done()
			return err
		}
	}
	g.Go("fails", waits(errDisk))
	g.Go("ends", waits(nil))
	g.Go("waits", mustNotRun(t))
	began.Wait()
	stop()
	ended.Wait()
	g.Go("late", mustNotRun(t))
	if err := g.Wait(); !errors.Is(err, ErrInterrupted) || !errors.Is(err, context.Canceled) {
		t.Error(err)
	}
	if !errors.Is(context.Cause(ctx), ErrInterrupted) {
		t.Error(context.Cause(ctx))
	}
	if err := night.Cancel(errDisk); !errors.Is(err, ErrInterrupted) {
		t.Error(err)
	}
	if err := s.Close(); err != nil {
		t.Error(err)
	}
	s = open(t, path)
	defer s.Close()
	night = Scope(s.Root(), "the-night")
	g, ctx = WithContext(night, "g")
	if ctx.Err() != nil {
		t.Error(context.Cause(ctx))
	}
	var ran atomic.Int32
	g.Go("ends", mustNotRun(t))
	for _, key := range []string{"fails", "waits", "late"} {
		g.Go(key, counts(&ran))
	}
	if err := g.Wait(); err != nil || ran.Load() != 3 {
		t.Error(err, ran.Load())
	}
}

func TestFinishBeginsAnotherNight(t *testing.T) {
	path := fresh(t)
	for run := 1; run < 4; run++ {
		s := open(t, path)
		if s.Night() != run {
			t.Errorf("night %d in run %d", s.Night(), run)
		}
		night := Scope(s.Root(), "scope", Value("seed", fmt.Sprint(run)),
			Deadline(time.Now().Add(time.Hour), nil))
		if got := night.Value(Key("seed")); got != fmt.Sprint(run) {
			t.Errorf("%v in run %d", got, run)
		}
		var ran atomic.Int32
		g, _ := WithContext(night, "g")
		result := Do(g, "a", func(context.Context) (int, error) { ran.Add(1); return run, nil })
		if err := g.Wait(); err != nil || ran.Load() != 1 {
			t.Error(err, ran.Load())
		}
		if got, err := result.Get(); got != run || err != nil {
			t.Error(got, err)
		}
		if err := s.Finish(); err != nil {
			t.Error(err)
		}
	}
}

func TestANewStoreHasNoOldResults(t *testing.T) {
	path := fresh(t)
	for run := 0; run < 2; run++ {
		s := open(t, path)
		got, err := Do(s.Group(s.Root(), "g"), "a", func(context.Context) (int, error) {
			return run, nil
		}).Get()
		if got != run || err != nil {
			t.Error(got, err)
		}
		s.Close()
		if all, _ := os.ReadFile(path + ".results"); strings.Count(string(all), "\n") != 2 {
			t.Errorf("%s", all)
		}
		os.Remove(path)
	}
}

func TestResultsAreThoseOfTheFirstRun(t *testing.T) {
	path := fresh(t)
	long := strings.Repeat("\x00\n", 3000)
	for run := 0; run < 2; run++ {
		s := open(t, path)
		g := s.Group(s.Root(), "g")
		a := Do(g, "a", func(context.Context) (int, error) { return 7 + run, nil })
		b := Do(g, "b", func(context.Context) (string, error) { return long + fmt.Sprint(run), nil })
		c := Do(g, "c", func(context.Context) (int, error) { return 1, errDisk })
		if got, err := a.Get(); got != 7 || err != nil {
			t.Error(got, err)
		}
		if got, err := b.Get(); got != long+"0" || err != nil {
			t.Error(len(got), err)
		}
		if _, err := c.Get(); err == nil || err.Error() != "disk full" {
			t.Error(err)
		}
		if err := g.Wait(); err == nil || err.Error() != "disk full" {
			t.Error(err)
		}
		s.crash()
	}
	s := open(t, path)
	defer s.Close()
	g := s.Group(s.Root(), "h")
	g.Go("a", returns(nil))
	g.Wait()
	again := Do(s.Group(s.Root(), "h"), "a", func(context.Context) (int, error) { return 1, nil })
	if _, err := again.Get(); err != ErrNoResult {
		t.Error(err)
	}
}
