package pokhnier

import (
	"context"
	"errors"
	"strings"
	"testing"
	"time"
)

func TestATimeoutCountsFromTheFirstRun(t *testing.T) {
	path := fresh(t)
	s := open(t, path)
	c := Scope(s.Root(), "t", Timeout(3*time.Second, errDisk))
	was, _ := c.Deadline()
	s.crash()
	time.Sleep(1100 * time.Millisecond)
	s = open(t, path)
	defer s.Close()
	c = Scope(s.Root(), "t", Timeout(3*time.Second, errDisk))
	if is, _ := c.Deadline(); !is.Equal(was) {
		t.Errorf("%v, was %v", is, was)
	}
	g, ctx := WithContext(c, "g")
	d, stop := context.WithTimeout(ctx, time.Hour) // package context's own, below it
	defer stop()
	cause := errDisk // if it isn't called, since the machine is slow
	g.Go("waits", func(ctx context.Context) error {
		<-ctx.Done()
		cause = context.Cause(ctx)
		return ctx.Err()
	})
	<-d.Done()
	if late := time.Since(was); late < 0 || late > longest {
		t.Errorf("late by %v", late)
	}
	if d.Err() != context.DeadlineExceeded || context.Cause(d) != errDisk {
		t.Errorf("%v, %v", d.Err(), context.Cause(d))
	}
	err := g.Wait()
	if !errors.Is(err, context.DeadlineExceeded) || !errors.Is(err, errDisk) || cause != errDisk {
		t.Errorf("%v, %v", err, cause)
	}
	s.Close()
	s = open(t, path)
	defer s.Close()
	c = Scope(s.Root(), "t", Timeout(3*time.Second, errDisk))
	if c.Err() != context.DeadlineExceeded || !errors.Is(context.Cause(c), errDisk) {
		t.Error(c.Err(), context.Cause(c))
	}
	g, _ = WithContext(c, "g")
	g.Go("waits", mustNotRun(t))
	g.Go("new", mustNotRun(t))
	if err := g.Wait(); !errors.Is(err, context.DeadlineExceeded) || !errors.Is(err, errDisk) {
		t.Error(err)
	}
}

func TestADeadlineThatComesBetweenTwoRuns(t *testing.T) {
	for wait := 2 * time.Second; !comesBetween(t, wait); wait *= 2 {
	}
}

// comesBetween returns false if the deadline has come before the task could begin.
func comesBetween(t *testing.T, wait time.Duration) bool {
	path := fresh(t)
	s := open(t, path)
	c := Scope(s.Root(), "t", Timeout(wait, nil))
	g, ctx := WithContext(c, "g")
	h := newHanging(t)
	g.Go("a", h.run)
	select {
	case <-h.began:
	case <-ctx.Done():
		s.crash()
		return false
	}
	s.crash()
	comes, _ := c.Deadline()
	time.Sleep(time.Until(comes) + 100*time.Millisecond)
	s = open(t, path)
	defer s.Close()
	c = Scope(s.Root(), "t", Timeout(wait, nil))
	if c.Err() != context.DeadlineExceeded || context.Cause(c) != context.DeadlineExceeded {
		t.Error(c.Err(), context.Cause(c))
	}
	g, _ = WithContext(c, "g")
	g.Go("a", mustNotRun(t))
	if err := g.Wait(); !errors.Is(err, context.DeadlineExceeded) {
		t.Error(err)
	}
	return true
}

func TestValuesAreThoseOfTheFirstRun(t *testing.T) {
	path := fresh(t)
	s := open(t, path)
	Scope(s.Root(), "seed", Value("seed", "17"), Value("other", ""))
	s.crash()
	s = open(t, path)
	defer s.Close()
	c := Scope(s.Root(), "seed", Value("seed", "18"))
	if got := Scope(c, "below").Value(Key("seed")); got != "17" {
		t.Error(got)
	}
	if got := c.Value(Key("other")); got != nil {
		t.Error(got)
	}
}

func TestADurableCancel(t *testing.T) {
	path := fresh(t)
	s := open(t, path)
	night := Scope(s.Root(), "the night!")
	below := Scope(night, "below")
	kept := Scope(night, "kept", Detached())
	g, ctx := WithContext(below, "g")
	h := s.Group(kept, "h")
	told := make(chan error, 1)
	g.SetLimit(1)
	began := make(chan struct{})
	g.Go("a", func(ctx context.Context) error {
		close(began)
		<-ctx.Done()
		told <- context.Cause(ctx)
		return ctx.Err()
	})
	<-began
	g.Go("b", mustNotRun(t))
	if err := night.Cancel(errDisk); err != nil {
		t.Error(err)
	}
	if context.Cause(below) != errDisk || kept.Err() != nil || context.Cause(kept) != nil {
		t.Error(context.Cause(below), kept.Err())
	}
	if got := <-told; got != errDisk {
		t.Error(got)
	}
	if again := Scope(s.Root(), "the night!"); context.Cause(again) != errDisk {
		t.Error(context.Cause(again))
	}
	if err := g.Wait(); !errors.Is(err, errDisk) || context.Cause(ctx) != errDisk {
		t.Error(err, context.Cause(ctx))
	}
	h.Go("c", returns(nil))
	if err := h.Wait(); err != nil {
		t.Error(err)
	}
	s.crash()
	s = open(t, path)
	defer s.Close()
	night = Scope(s.Root(), "the night!")
	below = Scope(night, "below")
	if err := night.Cancel(errors.New("later")); err != nil {
		t.Error(err)
	}
	if !errors.Is(context.Cause(below), errDisk) {
		t.Error(context.Cause(below))
	}
	g, _ = WithContext(below, "g")
	g.Go("a", mustNotRun(t))
	g.Go("b", mustNotRun(t))
	g.Go("new", mustNotRun(t))
	if err := g.Wait(); !errors.Is(err, errDisk) || !errors.Is(err, context.Canceled) {
		t.Error(err)
	}
	inner, _ := WithContext(below, "inner")
	inner.Go("a", mustNotRun(t))
	if err := inner.Wait(); !errors.Is(err, errDisk) {
		t.Error(err)
	}
}

func TestParentsThatTheStoreDoesntKnow(t *testing.T) {
	path := fresh(t)
	s := open(t, path)
	type k struct{}
	request, stop := context.WithCancel(context.WithValue(context.Background(), k{}, "v"))
	c := Scope(s.On(request), "c")
	between, stopBetween := context.WithCancelCause(c)
	d := Scope(between, "d")
	g, _ := WithContext(d, "g")
	g.Go("a", func(ctx context.Context) error { <-ctx.Done(); return ctx.Err() })
	if d.Value(k{}) != "v" {
		t.Error("no value")
	}
	stopBetween(errDisk)
	<-d.Done()
	if context.Cause(d) != errDisk || c.Err() != nil {
		t.Error(context.Cause(d), c.Err())
	}
	if err := g.Wait(); err != errDisk {
		t.Error(err)
	}
	stop()
	<-c.Done()
	s.Close()
	s = open(t, path)
	defer s.Close()
	d = Scope(Scope(s.Root(), "c"), "d")
	if d.Err() != nil {
		t.Error("what the store doesn't know cancels for one run alone", context.Cause(d))
	}
	g, _ = WithContext(d, "g")
	g.Go("a", returns(nil))
	if err := g.Wait(); err != nil {
		t.Error(err)
	}
}

func TestAGroupInAFunctionEndsWithIt(t *testing.T) {
	s := open(t, fresh(t))
	defer s.Close()
	outer, _ := WithContext(s.Root(), "outer")
	began := make(chan struct{})
	outer.Go("a", func(ctx context.Context) error {
		inner, _ := WithContext(ctx, "inner")
		inner.SetLimit(1)
		inner.Go("x", func(ctx context.Context) error {
			close(began)
			<-ctx.Done()
			return context.Cause(ctx)
		})
		inner.Go("y", mustNotRun(t))
		return inner.Wait()
	})
	<-began
	outer.Go("b", returns(errDisk))
	if err := outer.Wait(); err != errDisk {
		t.Error(err)
	}
}

func TestALongCauseIsKept(t *testing.T) {
	path, long := fresh(t), errors.New(strings.Repeat("because ", 30))
	s := open(t, path)
	if err := Scope(s.Root(), "c").Cancel(long); err != nil {
		t.Error(err)
	}
	s.crash()
	s = open(t, path)
	defer s.Close()
	if got := context.Cause(Scope(s.Root(), "c")); got == nil || got.Error() != long.Error() {
		t.Error(got)
	}
}

func TestOneNameForTwoThings(t *testing.T) {
	s := open(t, fresh(t))
	defer s.Close()
	g := s.Group(s.Root(), "x")
	g.Go("a", returns(nil))
	g.Wait()
	if c := Scope(s.Root(), "x", Timeout(time.Hour, nil)); !errors.Is(context.Cause(c), ErrOther) {
		t.Error(context.Cause(c))
	}
}
