// Package pokhnier has contexts and groups that survive crashes. They are like those of package
// context and of errgroup, but they are kept in a file, the store, by the program night.
//
// A program that is killed is started again, and makes the same calls. It finds its scopes, groups
// and tasks by their names: a function that has ended well isn't called again, and Do returns the
// result that it had then. A function that was interrupted is called again. A scope that was
// canceled stays so, and deadlines and values are those of the first run.
//
//	store, err := pokhnier.Open(ctx, "night.store")
//	if err != nil {
//		log.Fatal(err)
//	}
//	defer store.Close()
//	copies, _ := pokhnier.WithContext(store.Root(), "copies")
//	copies.SetLimit(4)
//	for _, path := range paths {
//		path := path
//		copies.Go(path, func(ctx context.Context) error { return copyFile(ctx, path) })
//	}
//	if err := copies.Wait(); err != nil {
//		log.Print(err) // the first error of a function, in any run
//	}
//
// Nothing is reported before it is durable: a function begins after its beginning is recorded, Done
// is closed after the cancel is, and Wait returns after each end is.
//
// A night is one piece of work, which may take several runs of the program. Close ends a run, and
// Finish ends the night.
//
// The program night decides which functions begin and which have to stop. It is found by the
// variable NIGHT, in the folder of the program that uses this package, or on the path.
package pokhnier
