package pokhnier

// News are what others learn from an answer.
type news struct {
	results  []line   // of tries that have begun
	ends     []func() // of contexts
	outcomes []outcome
	ops      []*op
	begun    []*command
}

// give gives the news: contexts end before those who wait go on, and then functions begin.
func (n *news) give() {
	for _, end := range n.ends {
		end()
	}
	for _, it := range n.outcomes {
		it.give()
	}
	for _, it := range n.ops {
		close(it.isDone)
	}
	for _, c := range n.begun {
		go c.work()
	}
}
