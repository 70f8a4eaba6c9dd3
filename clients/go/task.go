package pokhnier

import "context"

type commandKey struct{}

// A Task says which task a function is.
type Task struct {
	Group, Key string // their names in the store
	Number     int    // of the task; each attempt has another one
	Attempt    int    // how many tries of this key were begun before
}

// TaskOf returns the task whose function runs with this context.
func TaskOf(ctx context.Context) (Task, bool) {
	c, is := ctx.Value(commandKey{}).(*command)
	if !is {
		return Task{}, false
	}
	s := c.group.s
	s.mu.Lock()
	defer s.mu.Unlock()
	return Task{c.try.group, c.key, c.task, c.try.number}, true
}
