package pokhnier

import (
	"context"
	"encoding/json"
	"sync"
)

// A Future is the result of a task, in this run or in an earlier one.
type Future[T any] struct {
	isDone chan struct{}
	result json.RawMessage
	read   sync.Once
	value  T
	err    error
}

// Get waits until the end of the task is durable, and returns its result.
func (f *Future[T]) Get() (T, error) {
	<-f.isDone
	f.read.Do(f.decode)
	return f.value, f.err
}

// decode reads the result. Its type may have a method for that, so only those who ask for the
// result wait for it.
func (f *Future[T]) decode() {
	switch {
	case f.err != nil:
	case f.result == nil:
		f.err = ErrNoResult
	default:
		f.err = json.Unmarshal(f.result, &f.value)
	}
}

// Do is Group.Go for a function with a result. The result is kept as JSON, and the Future has what
// package json reads of it, in each run. If the task ended well in an earlier one, f isn't called.
func Do[T any](g *Group, key string, f func(context.Context) (T, error)) *Future[T] {
	future := &Future[T]{isDone: make(chan struct{})}
	run := func(ctx context.Context) (json.RawMessage, error) {
		value, err := f(ctx)
		if err != nil {
			return nil, err
		}
		return json.Marshal(value)
	}
	then := func(result json.RawMessage, err error) {
		future.result, future.err = result, err
		close(future.isDone)
	}
	g.add(&command{group: g, key: keyName(key), run: run, then: then}, false)
	return future
}
