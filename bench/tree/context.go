// Times the calls of Go's package context over the trees of main.rt.txt: a chain, a star and a
// random tree of 1,023 contexts. Each figure is the least of 300 rounds, for one call, in tenths of
// a nanosecond. In a second tree of each shape context 1 has the one deadline and context 2 the one
// value, and the last sixteen contexts are asked for both, 64 times.
package main

import (
	"context"
	"fmt"
	"time"
)

const scopes = 1023

// parents gives the parent of each context: 0 is the background, and context 1 is every other's
// ancestor.
func parents(shape string) []int {
	dice := uint64(1)
	parent := make([]int, scopes+1)
	for n := 1; n <= scopes; n++ {
		dice = dice*6364136223846793005 + 1442695040888963407
		switch {
		case n < 2:
			parent[n] = 0
		case shape == "chain":
			parent[n] = n - 1
		case shape == "star":
			parent[n] = 1
		default:
			parent[n] = 1 + int((dice>>33)%uint64(n-1))
		}
	}
	return parent
}

// best keeps the least time of each kind of calls.
type best map[string]time.Duration

func (b best) add(what string, took time.Duration) {
	if old, ok := b[what]; !ok || took < old {
		b[what] = took
	}
}

// round grows a tree, asks it, and cancels it.
func round(parent []int, b best, sum *int) {
	at := make([]context.Context, scopes+1)
	cancel := make([]context.CancelFunc, scopes+1)
	at[0] = context.Background()
	start := time.Now()
	for n := 1; n <= scopes; n++ {
		at[n], cancel[n] = context.WithCancel(at[parent[n]])
	}
	b.add("derive", time.Since(start))

	start = time.Now()
	for n := 1; n <= scopes; n++ {
		if at[n].Err() != nil {
			*sum++
		}
	}
	b.add("err of a live context", time.Since(start))

	start = time.Now()
	for n := 0; n < 10; n++ {
		cancel[scopes-n]()
	}
	b.add("cancel of a leaf", time.Since(start))

	start = time.Now()
	cancel[1]()
	b.add("cancel, a context ended", time.Since(start))

	start = time.Now()
	for n := 1; n <= scopes; n++ {
		if at[n].Err() != nil {
			*sum++
		}
	}
	b.add("err of a done context", time.Since(start))
}

// key is what the one value is found by.
type key struct{}

// reach asks the last contexts of a tree for what the first two have.
func reach(parent []int, b best, sum *int) {
	at := make([]context.Context, scopes+1)
	at[0] = context.Background()
	for n := 1; n <= scopes; n++ {
		var cancel context.CancelFunc
		under := at[max(parent[n], min(n-1, 2))]
		switch n {
		case 1:
			at[n], cancel = context.WithDeadline(under, time.Now().Add(time.Hour))
		case 2:
			at[n], cancel = context.WithCancel(context.WithValue(under, key{}, "eu"))
		default:
			at[n], cancel = context.WithCancel(under)
		}
		defer cancel()
	}

	start := time.Now()
	for i := 0; i < 1024; i++ {
		if _, ok := at[scopes-i%16].Deadline(); ok {
			*sum++
		}
	}
	b.add("deadline", time.Since(start))

	start = time.Now()
	for i := 0; i < 1024; i++ {
		if at[scopes-i%16].Value(key{}) != nil {
			*sum++
		}
	}
	b.add("value", time.Since(start))
}

func main() {
	calls := []struct {
		what string
		many int64
	}{
		{"derive", scopes},
		{"err of a live context", scopes},
		{"err of a done context", scopes},
		{"cancel of a leaf", 10},
		{"cancel, a context ended", scopes - 10},
		{"deadline", 1024},
		{"value", 1024},
	}
	for _, shape := range []string{"chain", "star", "random"} {
		b, sum, parent := best{}, 0, parents(shape)
		for i := 0; i < 300; i++ {
			round(parent, b, &sum)
			reach(parent, b, &sum)
		}
		fmt.Printf("%s, in tenths of a nanosecond (sum %d)\n", shape, sum)
		for _, call := range calls {
			fmt.Printf("  %s %d\n", call.what, b[call.what].Nanoseconds()*10/call.many)
		}
	}
}
