package pokhnier

import (
	"context"
	"fmt"
	"io"
	"os"
	"os/exec"
	"strconv"
	"strings"
	"sync/atomic"
	"testing"
)

// TestMain makes this program a `night` whose answers are cut off, if CUT says after how many
// bytes. It cuts the first session alone.
func TestMain(m *testing.M) {
	if os.Getenv("CUT") != "" && len(os.Args) > 1 && !strings.HasPrefix(os.Args[1], "-test.") {
		os.Exit(cutNight())
	}
	os.Exit(m.Run())
}

func cutNight() int {
	command := exec.Command(os.Getenv("WHOLE_NIGHT"), os.Args[1:]...)
	command.Stdin, command.Stderr = os.Stdin, os.Stderr
	out, err := command.StdoutPipe()
	if err != nil || command.Start() != nil {
		return 3
	}
	left, _ := strconv.ParseInt(os.Getenv("CUT"), 10, 64)
	if os.Args[1] != "drive" || sessionOf(os.Args[2]) != os.Getenv("CUT_SESSION") {
		io.Copy(os.Stdout, out)
		command.Wait()
		return command.ProcessState.ExitCode()
	}
	io.CopyN(os.Stdout, out, left)
	command.Process.Kill()
	command.Wait()
	return killSelf()
}

// sessionOf returns the number of this session of a store.
func sessionOf(path string) string {
	for number := 1; ; number++ {
		if os.Mkdir(fmt.Sprint(path, ".session", number), 0o777) == nil {
			return fmt.Sprint(number)
		}
	}
}

func killSelf() int {
	self, _ := os.FindProcess(os.Getpid())
	self.Kill()
	select {}
}

// beginAnswer is the answer to the round in which a task begins.
const beginAnswer = "begin 1 0 g a 0\ndurable\n\n"

func TestHalfAnAnswerIsntTaken(t *testing.T) {
	whole, err := findNight()
	if err != nil {
		t.Fatal(err)
	}
	own, _ := os.Executable()
	t.Setenv("NIGHT", own)
	t.Setenv("WHOLE_NIGHT", whole)
	t.Setenv("CUT_SESSION", "1")
	begins := len("plan 1\nnight 1\n\n" + "durable\n\n")
	cuts := []int{0, 5, begins - 1}
	for at := range beginAnswer {
		if strings.Contains("\n ", beginAnswer[at:at+1]) {
			cuts = append(cuts, begins+at)
		}
	}
	for _, cut := range cuts {
		t.Setenv("CUT", fmt.Sprint(cut))
		s := open(t, fresh(t))
		var ran, attempts atomic.Int32
		g := s.Group(s.Root(), "g")
		g.Go("a", func(ctx context.Context) error {
			ran.Add(1)
			it, _ := TaskOf(ctx)
			attempts.Store(int32(it.Attempt))
			return nil
		})
		if err := g.Wait(); err != nil || ran.Load() != 1 {
			t.Errorf("cut after %d: %v, called %d times", cut, err, ran.Load())
		}
		// The program has recorded the first beginning, of which nobody has learned.
		if want := int32(1); cut > begins && attempts.Load() != want {
			t.Errorf("cut after %d: attempt %d", cut, attempts.Load())
		}
		s.Close()
	}
}

// The second session dies after it has recorded that a try has another task, and before it says so.
func TestARebindIsLost(t *testing.T) {
	whole, err := findNight()
	if err != nil {
		t.Fatal(err)
	}
	own, _ := os.Executable()
	t.Setenv("NIGHT", own)
	t.Setenv("WHOLE_NIGHT", whole)
	t.Setenv("CUT", fmt.Sprint(len("plan 3\nnight 1\n\n"+"rebound")))
	t.Setenv("CUT_SESSION", "2")
	s := open(t, fresh(t))
	defer s.Close()
	g := s.Group(s.Root(), "g")
	var ran atomic.Int32
	began, ends := make(chan struct{}), make(chan struct{})
	g.Go("a", func(context.Context) error {
		ran.Add(1)
		close(began)
		<-ends
		return nil
	})
	<-began
	s.killNight()
	if _, err := Do(g, "b", gives(7)).Get(); err != nil {
		t.Error(err)
	}
	close(ends)
	if err := g.Wait(); err != nil || ran.Load() != 1 {
		t.Error(err, ran.Load())
	}
}

// A limit comes while another session is opened, whose plan was written before.
func TestALimitComesBetweenPlanAndRound(t *testing.T) {
	s := newStore("", "", nil)
	s.past = &past{groupRoom: 2, scopes: map[string]*pastScope{}}
	s.newPlan()
	r, err := s.roomOf("g", wayGoOn, isGroup)
	if err != nil {
		t.Fatal(err)
	}
	s.limit(r, 3)
	p, err := s.firstPart(s.past)
	if err != nil || strings.Contains(strings.Join(p.lines, "\n"), "size 1") {
		t.Error(err, p.lines)
	}
	if got := strings.Join(s.nextPart().lines, "\n"); !strings.Contains(got, poolLine+"\ngroup 0 go-on g\nsize 1 3") {
		t.Error(got)
	}
}

// The end of a task was in the first round of a session that couldn't be opened.
func TestAnEndOfALostSession(t *testing.T) {
	s := newStore("", "", nil)
	s.past = &past{}
	g := &Group{s: s, name: "g", room: &room{active: 1}}
	g.ctx = newCtx(s, "g", context.Background(), nil, true)
	s.open[&command{group: g, key: "a", phase: hasEnded}] = struct{}{}
	g.open.Add(1)
	s.die(errDisk)
	within(t, "Wait", func() {
		if err := g.Wait(); err != errDisk {
			t.Error(err)
		}
	})
}
