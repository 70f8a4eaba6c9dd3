package pokhnier

import "context"

// On gives a context of another origin, such as that of a request, a place in the store. What is
// derived from it has its values, and ends with it for this run alone.
func (s *Store) On(ctx context.Context) context.Context { return on{ctx, s.root} }

type on struct {
	context.Context
	root *Ctx
}

// AfterFunc lets package context use the method of the context inside, if it has one.
func (c on) AfterFunc(f func()) func() bool { return context.AfterFunc(c.Context, f) }

func (c on) Value(key any) any {
	if _, is := key.(ctxKey); is {
		return c.root
	}
	return c.Context.Value(key)
}
