// Crash is a program that may be killed at any moment and started again.
//
//	crash STORE LOG TASKS
//
// It writes a line into LOG when a function begins and when it ends, when somebody has its result,
// and when a group has its first error. tests/clients_go compares the lines of all runs.
package main

import (
	"context"
	"errors"
	"fmt"
	"log"
	"math/rand"
	"os"
	"strconv"
	"sync"
	"time"

	"pokhnier"
)

type journal struct{ file *os.File }

// note writes a line by one call, so that no kill leaves half of it.
func (j journal) note(format string, values ...any) {
	fmt.Fprintf(j.file, format+"\n", values...)
}

func main() {
	file, err := os.OpenFile(os.Args[2], os.O_APPEND|os.O_CREATE|os.O_WRONLY, 0o666)
	if err != nil {
		log.Fatal(err)
	}
	tasks, err := strconv.Atoi(os.Args[3])
	if err != nil {
		log.Fatal(err)
	}
	j := journal{file}
	store, err := pokhnier.Open(context.Background(), os.Args[1])
	if err != nil {
		j.note("fault %v", err)
		os.Exit(3)
	}
	j.note("open")
	seed := pokhnier.Scope(store.Root(), "seed", pokhnier.Value("seed", fmt.Sprint(rand.Int())))
	j.note("seed %v", seed.Value(pokhnier.Key("seed")))
	j.fail(store, "all", store.Group(seed, "all"))
	first, _ := pokhnier.WithContext(seed, "first")
	j.fail(store, "first", first)
	j.work(store, tasks)
	if err := store.Close(); err != nil {
		j.note("fault %v", err)
		os.Exit(1)
	}
	j.note("done")
}

// fail runs a group of which some functions fail, and notes its first error.
func (j journal) fail(store *pokhnier.Store, name string, group *pokhnier.Group) {
	group.SetLimit(4)
	for i := 0; i < 12; i++ {
		key := fmt.Sprintf("%s%d", name, i)
		group.Go(key, func(ctx context.Context) error {
			j.note("begin %s %d", key, attempt(ctx))
			time.Sleep(time.Duration(rand.Intn(3)) * time.Millisecond)
			defer j.note("end %s", key)
			if rand.Intn(4) == 0 {
				return fmt.Errorf("%s failed in process %d at %d", key, os.Getpid(), time.Now().UnixNano())
			}
			return nil
		})
	}
	if err := group.Wait(); !errors.Is(err, pokhnier.ErrLost) {
		j.note("first %s %v", name, err)
	}
}

func attempt(ctx context.Context) int {
	task, _ := pokhnier.TaskOf(ctx)
	return task.Attempt
}

// work runs tasks that end well, eight at a time, and notes each result.
func (j journal) work(store *pokhnier.Store, tasks int) {
	var running sync.Map
	group, _ := pokhnier.WithContext(store.Root(), "work")
	group.SetLimit(8)
	var waits sync.WaitGroup
	sum := make([]int, tasks)
	for i := 0; i < tasks; i++ {
		i, key := i, fmt.Sprintf("t%03d", i)
		result := pokhnier.Do(group, key, func(ctx context.Context) (int, error) {
			if _, is := running.LoadOrStore(key, true); is {
				j.note("beside %s", key)
			}
			defer running.Delete(key)
			j.note("begin %s %d", key, attempt(ctx))
			time.Sleep(time.Duration(1+rand.Intn(6)) * time.Millisecond)
			j.note("end %s", key)
			return i * i, nil
		})
		waits.Add(1)
		go func() {
			defer waits.Done()
			if got, err := result.Get(); err == nil {
				j.note("acked %s %d", key, got)
				sum[i] = got
			} else {
				j.note("lost %s %v", key, err)
			}
		}()
	}
	err := group.Wait()
	waits.Wait()
	total := 0
	for _, it := range sum {
		total += it
	}
	j.note("sum %d %v", total, err)
}
