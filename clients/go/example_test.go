package pokhnier_test

import (
	"context"
	"fmt"
	"log"
	"os"
	"path/filepath"

	"pokhnier"
)

// Two runs of a program: the second one doesn't call the function again.
func Example() {
	folder, err := os.MkdirTemp("", "example-")
	if err != nil {
		log.Fatal(err)
	}
	defer os.RemoveAll(folder)
	for run := 1; run <= 2; run++ {
		store, err := pokhnier.Open(context.Background(), filepath.Join(folder, "store"))
		if err != nil {
			log.Fatal(err)
		}
		sums := store.Group(store.Root(), "sums")
		sum := pokhnier.Do(sums, "1+2", func(context.Context) (int, error) {
			fmt.Println("called in run", run)
			return 1 + 2, nil
		})
		got, err := sum.Get()
		fmt.Println(got, err)
		store.Close()
	}
	// Output:
	// called in run 1
	// 3 <nil>
	// 3 <nil>
}
