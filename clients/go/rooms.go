package pokhnier

import "fmt"

// roomOf returns the room of this name, or makes it. The mutex is held.
func (s *Store) roomOf(name, way string, kind roomKind) (*room, error) {
	if r := s.rooms[name]; r != nil {
		if r.way != way || r.kind != kind {
			return nil, fmt.Errorf("%w: %s", ErrOther, name)
		}
		return r, nil
	}
	r := &room{name: name, way: way, kind: kind, limit: -1, number: -1}
	row := s.past.scopes[name]
	if row == nil {
		if s.groups >= s.past.groupRoom {
			return nil, ErrFull
		}
		s.groups++
	} else {
		r.moment, r.words, r.isDone = row.moment, row.words, row.isDone
	}
	s.rooms[name] = r
	s.roomList = append(s.roomList, r)
	s.todo.rooms = append(s.todo.rooms, r)
	return r, nil
}

// ensureRoom gives a group its room.
func (s *Store) ensureRoom(g *Group) error {
	if g.room != nil {
		return nil
	}
	r, err := s.roomOf(g.name, g.way(), isGroup)
	g.room = r
	return err
}
