package pokhnier

import (
	"fmt"
	"sort"
)

const (
	anyLimit   = 4_294_967_295
	keeperRoom = "_"
	keeper     = "stay"
)

// A room is a group of the plan. A Group has one once it has a task, and a Scope once it has a
// deadline or is canceled.
type room struct {
	name   string
	kind   roomKind
	way    string // what a failure does to the group
	moment int64  // of its deadline, or 0
	words  string
	pool   int // or 0
	limit  int // or -1
	active int // tasks that are open
	isDone bool
	number int // in the plan of this session, or -1
}

// A roomKind says whose room it is.
type roomKind uint8

const (
	isScope roomKind = iota
	isGroup
)

// The ways of a group: a failure cancels it, or changes nothing.
const (
	wayCancel = "cancel"
	wayGoOn   = "go-on"
)

func (r *room) lines() []string {
	lines := []string{fmt.Sprintf("group 0 %s %s", r.way, r.name)}
	if r.moment > 0 {
		lines = append(lines, fmt.Sprintf("until %d %s", r.moment, r.words))
	}
	return lines
}

// poolLine adds a pool. It has all sizes that a limit may have: a command may not take more of a
// pool than the plan says, whatever its size is by then.
var poolLine = fmt.Sprintf("pool %d", anyLimit)

// size returns the line for the limit of a room that has a pool.
func (r *room) size(isCut bool) string {
	limit := r.limit
	switch {
	case isCut:
		limit = 0
	case limit < 0 || limit > anyLimit:
		limit = anyLimit
	}
	return fmt.Sprintf("size %d %d", r.pool, limit)
}

func (c *command) lines() []string {
	g := c.group
	lines := []string{fmt.Sprintf("command %d 0 %d %d 1 %d %s", g.room.number, g.retries, g.wait,
		g.wait, c.key)}
	if g.room.pool > 0 {
		lines = append(lines, fmt.Sprintf("take %d 1", g.room.pool))
	}
	return lines
}

// A plan is what this session has been given, by its numbers. Number 0 of both is the keeper: a
// command that never begins, because its pool has no room. So the night isn't over before Finish
// cancels its group.
type plan struct {
	pools    int // but for that of the keeper
	rooms    []*room
	commands []*command
	running  map[int]*command // by their tasks
}

// newPlan numbers all rooms and all open commands, and returns the lines of a plan.
func (s *Store) newPlan() []string {
	s.plan = plan{pools: s.pools, rooms: []*room{nil}, commands: []*command{nil},
		running: map[int]*command{}}
	var lines []string
	for i := 0; i <= s.pools; i++ {
		lines = append(lines, poolLine)
	}
	lines = append(lines, "group 0 go-on "+keeperRoom, "command 0 0 0 0 1 0 "+keeper, "take 0 1")
	for _, r := range s.roomList {
		lines = append(lines, s.plan.addRoom(r)...)
	}
	for _, c := range s.openInOrder() {
		lines = append(lines, s.plan.addCommand(c)...)
	}
	s.todo.pools, s.todo.rooms, s.todo.commands = 0, nil, nil
	return lines
}

func (p *plan) addRoom(r *room) []string {
	r.number = len(p.rooms)
	p.rooms = append(p.rooms, r)
	return r.lines()
}

func (p *plan) addCommand(c *command) []string {
	c.number = len(p.commands)
	p.commands = append(p.commands, c)
	return c.lines()
}

// command returns the command with a number; nil is the keeper, or one that doesn't exist.
func (p *plan) command(number int) *command {
	if number < 0 || number >= len(p.commands) {
		return nil
	}
	return p.commands[number]
}

// openInOrder returns the open commands in the order in which they were called.
func (s *Store) openInOrder() []*command {
	all := make([]*command, 0, len(s.open))
	for c := range s.open {
		all = append(all, c)
	}
	sort.Slice(all, func(i, j int) bool { return all[i].order < all[j].order })
	return all
}
