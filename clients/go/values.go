package pokhnier

import "context"

// openValues finds the values of a scope, or makes them. Each is a task, whose result is the text.
func (c *Ctx) openValues(wishes map[Key]string) error {
	if len(wishes) == 0 {
		return nil
	}
	c.s.valuing.Lock() // two may ask for one value
	defer c.s.valuing.Unlock()
	g := c.s.valueGroup()
	found := map[Key]*Future[string]{}
	for key, text := range wishes {
		text := text
		name := c.name + " " + string(key)
		found[key] = Do(g, name, func(context.Context) (string, error) { return text, nil })
	}
	c.values = map[Key]string{}
	for key, it := range found {
		text, err := it.Get()
		if err != nil {
			return err
		}
		c.values[key] = text
	}
	return nil
}

// valueGroup returns a group for values.
func (s *Store) valueGroup() *Group {
	g := &Group{s: s, name: "_values", called: map[string]bool{}}
	g.ctx = newCtx(s, g.name, s.root, s.root, true)
	return g
}
