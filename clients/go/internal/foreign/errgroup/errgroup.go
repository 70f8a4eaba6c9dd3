// Package errgroup has the API of golang.org/x/sync/errgroup over a store.
package errgroup

import (
	"context"
	"sync"

	"pokhnier"
	"pokhnier/internal/foreign"
)

// A Group is as in x/sync. The zero value is a group without a context.
type Group struct {
	once  sync.Once
	group *pokhnier.Group
}

// WithContext is as in x/sync.
func WithContext(ctx context.Context) (*Group, context.Context) {
	if !pokhnier.Has(ctx) {
		ctx = foreign.Store().On(ctx)
	}
	g := &Group{}
	g.once.Do(func() {})
	g.group, ctx = pokhnier.WithContext(ctx, foreign.Name())
	return g, ctx
}

func (g *Group) made() *pokhnier.Group {
	g.once.Do(func() {
		store := foreign.Store()
		g.group = store.Group(store.Root(), foreign.Name())
	})
	return g.group
}

func plain(f func() error) func(context.Context) error {
	return func(context.Context) error { return f() }
}

// Go is as in x/sync, but it doesn't block.
func (g *Group) Go(f func() error) { g.made().Go(foreign.Key(), plain(f)) }

// TryGo is as in x/sync.
func (g *Group) TryGo(f func() error) bool { return g.made().TryGo(foreign.Key(), plain(f)) }

// SetLimit is as in x/sync.
func (g *Group) SetLimit(n int) { g.made().SetLimit(n) }

// Wait is as in x/sync.
func (g *Group) Wait() error { return g.made().Wait() }
