package pokhnier

import (
	"context"
	"errors"
	"os"
	"os/exec"
	"runtime"
	"strings"
	"sync/atomic"
	"testing"
	"time"
)

func exits(context.Context) error {
	runtime.Goexit()
	return nil
}

// A function that ends its goroutine has failed, in this run and in the next one, and leaves nobody
// waiting. So does t.FailNow in a function.
func TestGoexit(t *testing.T) {
	path := fresh(t)
	for _, run := range []string{"this run", "the next run"} {
		s := open(t, path)
		g, ctx := WithContext(s.Root(), "g")
		future := Do(g, "a", func(ctx context.Context) (int, error) { return 1, exits(ctx) })
		plain := s.Group(s.Root(), "plain")
		plain.Go("b", exits)
		plain.Go("c", returns(nil))
		errs := make(chan error, 3)
		go func() {
			errs <- g.Wait()
			errs <- plain.Wait()
			_, err := future.Get()
			errs <- err
		}()
		for _, what := range []string{"WithContext", "Group", "Do"} {
			select {
			case err := <-errs:
				if err == nil || err.Error() != ErrGoexit.Error() ||
					run == "this run" && !errors.Is(err, ErrGoexit) {
					t.Errorf("%s: %s: %v", run, what, err)
				}
			case <-time.After(longest):
				t.Fatalf("%s: %s: it hangs", run, what)
			}
		}
		if cause := context.Cause(ctx); cause == nil || cause.Error() != ErrGoexit.Error() {
			t.Errorf("%s: the cause: %v", run, cause)
		}
		s.Close()
	}
}

// A panic ends the program with its own stack, as it does without a store. It is no failure of the
// task: the next run calls the function again.
func TestAPanicIsntRecorded(t *testing.T) {
	if path := os.Getenv("PANICS_OVER"); path != "" {
		s := open(t, path)
		g, _ := WithContext(s.Root(), "g")
		g.Go("a", panics)
		g.Wait()
		return
	}
	path := fresh(t)
	child := exec.Command(os.Args[0], "-test.run=^TestAPanicIsntRecorded$")
	child.Env = append(os.Environ(), "PANICS_OVER="+path)
	printed, err := child.CombinedOutput()
	if err == nil || !strings.Contains(string(printed), "panic: no disk") ||
		!strings.Contains(string(printed), "pokhnier.panics") {
		t.Errorf("%v: %s", err, printed)
	}
	s := open(t, path)
	defer s.Close()
	g, _ := WithContext(s.Root(), "g")
	var ran atomic.Int32
	g.Go("a", counts(&ran))
	if err := g.Wait(); err != nil || ran.Load() != 1 {
		t.Error(err, ran.Load())
	}
}

func panics(context.Context) error { panic("no disk") }
