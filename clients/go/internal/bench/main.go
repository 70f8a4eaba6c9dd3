// Bench measures durable tasks.
//
//	bench STORE WORKERS TASKS [results]
//
// It prints how many tasks of empty functions it ran in a second, at most WORKERS at a time, and how
// many seconds another run takes until it has opened the store and called all of them again.
package main

import (
	"context"
	"fmt"
	"log"
	"os"
	"strconv"
	"time"

	"pokhnier"
)

func main() {
	workers, err := strconv.Atoi(os.Args[2])
	if err != nil {
		log.Fatal(err)
	}
	tasks, err := strconv.Atoi(os.Args[3])
	if err != nil {
		log.Fatal(err)
	}
	hasResults := len(os.Args) > 4
	store := open()
	began := time.Now()
	run(store, workers, tasks, hasResults)
	fmt.Printf("%.0f", float64(tasks)/time.Since(began).Seconds())
	began = time.Now()
	store = open()
	run(store, workers, tasks, hasResults)
	fmt.Printf(" %.3f\n", time.Since(began).Seconds())
}

func open() *pokhnier.Store {
	store, err := pokhnier.Open(context.Background(), os.Args[1])
	if err != nil {
		log.Fatal(err)
	}
	return store
}

// run calls all tasks, waits for them, and closes the store.
func run(store *pokhnier.Store, workers, tasks int, hasResults bool) {
	group := store.Group(store.Root(), "g")
	group.SetLimit(workers)
	for i := 0; i < tasks; i++ {
		if hasResults {
			pokhnier.Do(group, strconv.Itoa(i), seven)
		} else {
			group.Go(strconv.Itoa(i), nothing)
		}
	}
	if err := group.Wait(); err != nil {
		log.Fatal(err)
	}
	if err := store.Close(); err != nil {
		log.Fatal(err)
	}
}

func nothing(context.Context) error { return nil }

func seven(context.Context) (int, error) { return 7, nil }
