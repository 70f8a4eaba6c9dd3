package pokhnier

import (
	"context"
	"errors"
	"fmt"
	"os"
	"strings"
	"sync/atomic"
	"testing"
	"time"
)

func TestTwoPrograms(t *testing.T) {
	busyTime = 300 * time.Millisecond
	defer func() { busyTime = 10 * time.Second }()
	path := fresh(t)
	s := open(t, path)
	if _, err := Open(context.Background(), path); !errors.Is(err, ErrInUse) {
		t.Error(err)
	}
	s.Close()
	s = open(t, path)
	s.Close()
	if err := s.Close(); err != nil {
		t.Error(err)
	}
}

func TestNightIsKilled(t *testing.T) {
	path := fresh(t)
	s := open(t, path)
	defer s.Close()
	g, ctx := WithContext(s.Root(), "g")
	g.SetLimit(4)
	var ran atomic.Int32
	var futures []*Future[int]
	for i := 0; i < 60; i++ {
		i := i
		futures = append(futures, Do(g, fmt.Sprint(i), func(context.Context) (int, error) {
			ran.Add(1)
			if i%20 == 7 {
				s.killNight()
			}
			time.Sleep(2 * time.Millisecond)
			return i * i, nil
		}))
	}
	if err := g.Wait(); err != nil || ran.Load() != 60 {
		t.Error(err, ran.Load())
	}
	if context.Cause(ctx) != context.Canceled {
		t.Error(context.Cause(ctx))
	}
	s.crash()
	s = open(t, path)
	g, _ = WithContext(s.Root(), "g")
	for i := range futures {
		futures[i] = Do(g, fmt.Sprint(i), func(context.Context) (int, error) {
			t.Error("runs again")
			return 0, nil
		})
	}
	for i, it := range futures {
		if got, err := it.Get(); got != i*i || err != nil {
			t.Error(i, got, err)
		}
	}
	s.Close()
}

func TestNightHangs(t *testing.T) {
	answerTime = 4 * time.Second
	defer func() { answerTime = time.Minute }()
	s := open(t, fresh(t))
	defer s.Close()
	g, _ := WithContext(s.Root(), "g")
	hangs := s.session
	s.pauseNight(t)
	g.Go("a", returns(nil))
	if err := g.Wait(); err != nil {
		t.Error(err)
	}
	s.until(t, "another program", func() bool { return s.session != hangs })
}

func TestNightCantBeKept(t *testing.T) {
	path := fresh(t)
	s := open(t, path)
	g, ctx := WithContext(s.Root(), "g")
	h := newHanging(t)
	g.Go("a", h.run)
	<-h.began
	os.Remove(path)
	os.WriteFile(path, []byte("no store"), 0o600)
	s.killNight()
	g.Go("b", mustNotRun(t))
	<-ctx.Done()
	var ended *NightError
	if err := s.Err(); !errors.As(err, &ended) && !errors.Is(err, FaultWrongSize) {
		t.Error(err)
	}
	if c := Scope(s.Root(), "c"); c.Err() == nil {
		t.Error("a context of a lost store lives")
	}
}

func TestAFullStore(t *testing.T) {
	s := open(t, fresh(t))
	defer s.Close()
	var err error
	count := 0
	for ; count < 130 && err == nil; count++ {
		g, _ := WithContext(s.Root(), fmt.Sprint("g", count))
		g.Go("a", returns(nil))
		err = g.Wait()
	}
	if !errors.Is(err, ErrFull) || count != 128 { // 127 and the keeper's
		t.Error(count, err)
	}
	if g := s.Group(s.Root(), "g0"); g.Wait() != nil {
		t.Error("an old group can't be used")
	}
}

func TestHalfALineOfTheResultsIsntTaken(t *testing.T) {
	path, text := fresh(t), "\u00e9\U0001f600\n"
	r, err := openResults(path, 1)
	if err != nil {
		t.Fatal(err)
	}
	first := line{Night: 1, Group: "g", Key: "k", Try: 3, Is: "ok", Value: []byte(`{"a":"\u00e9"}`)}
	second := line{Night: 1, Group: "g", Key: "l", Is: "error", Text: &text}
	if err := r.write([]line{first, second}); err != nil {
		t.Fatal(err)
	}
	all, _ := os.ReadFile(path)
	if want := `{"night":1,"group":"g","key":"k","try":3,"is":"ok","value":{"a":"\u00e9"}}` + "\n" +
		`{"night":1,"group":"g","key":"l","try":0,"is":"error","text":"\u00e9\ud83d\ude00\n"}` +
		"\n"; string(all) != want {
		t.Errorf("%s", all)
	}
	for kept := 0; kept <= len(all); kept += 7 {
		os.WriteFile(path, all[:kept], 0o600)
		r, err := openResults(path, 1)
		if err != nil {
			t.Fatal(err)
		}
		if len(r.values)+len(r.errors) != strings.Count(string(all[:kept]), "\n") {
			t.Fatal(kept, r.values, r.errors)
		}
		if r.write([]line{second}); err != nil {
			t.Fatal(err)
		}
		r, err = openResults(path, 1)
		if got, _ := r.text(taskKey{"g", "l"}, 0); err != nil || got != text {
			t.Fatal(kept, err)
		}
	}
	if r, _ := openResults(path, 2); len(r.values)+len(r.errors) != 0 {
		t.Error("lines of another night")
	}
}

func TestNames(t *testing.T) {
	for text, wanted := range map[string]string{
		"a": "a", "sda-1_x": "sda-1_x", "night": "night_", "_": "__", "a--b": "a-b_", "": "_",
		"Copy /dev/sda!": "copy-dev_", "12345678901234567890": "12345678901234567890",
		"123456789012345678901": "123456789_", "\u00c9t\u00e9": "t_adca3dd5be",
	} {
		got := groupName(text)
		if !isName(got, 20) || !strings.HasPrefix(got, wanted) || strings.Contains(got, "--") {
			t.Errorf("%q is %q", text, got)
		}
	}
	if a, b := keyName("A"), keyName("a b"); a == b || !isName(a, 32) || !isName(b, 32) {
		t.Error(a, b)
	}
	// The example of ../README.md.
	if got := keyName("http://host/1"); got != "http-host-1_ac37b0091485" {
		t.Error(got)
	}
}

func TestTexts(t *testing.T) {
	for text, wanted := range map[string]string{
		"": "error", "interrupted": "error: interrupted", "withdrawn": "error: withdrawn",
		"canceled: x": "error: canceled: x", "a\nb\u00e9": "a?b?",
		strings.Repeat("x", 65): strings.Repeat("x", 62) + "..",
	} {
		if got := textOf(text); got != wanted {
			t.Errorf("%q is %q", text, got)
		}
	}
}

func TestAnotherRunHasTheLock(t *testing.T) {
	busyTime = 100 * time.Millisecond
	defer func() { busyTime = 10 * time.Second }()
	path := fresh(t)
	open(t, path).Close()
	// Its night has died, and its functions go on.
	lock, err := lockClient(context.Background(), path+".client")
	if err != nil {
		t.Fatal(err)
	}
	defer lock.Close()
	if _, err := Open(context.Background(), path); !errors.Is(err, ErrInUse) {
		t.Error(err)
	}
}
