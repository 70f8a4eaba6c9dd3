// Package foreign has what the adapters under it share. They give a store the API of x/sync's
// errgroup and of package context, so that the tests of these packages can be run over it.
package foreign

import (
	"context"
	"fmt"
	"os"
	"path/filepath"
	"sync"
	"sync/atomic"

	"pokhnier"
)

// perStore is how many scopes and groups a store is used for. It has room for 128 groups, and one
// test makes 101 scopes of one background.
const perStore = 24

var (
	mu    sync.Mutex
	store *pokhnier.Store
	made  int
	names atomic.Int64
)

// Store returns a store for what a test makes next. Stores that are no longer returned stay open.
func Store() *pokhnier.Store {
	mu.Lock()
	defer mu.Unlock()
	if store != nil && made < perStore {
		return store
	}
	folder, err := os.MkdirTemp(os.Getenv("STORES"), "foreign-")
	if err == nil {
		store, err = pokhnier.Open(context.Background(), filepath.Join(folder, "store"))
	}
	if err != nil {
		panic(err)
	}
	made = 0
	return store
}

// Name returns a new name for a scope, a group or a task.
func Name() string {
	mu.Lock()
	made++
	mu.Unlock()
	return fmt.Sprintf("n%d", names.Add(1))
}

// Key returns a new key of a task.
func Key() string { return fmt.Sprintf("n%d", names.Add(1)) }
