package pokhnier

import (
	"encoding/json"
	"fmt"
	"strconv"
	"strings"
)

// A taskKey names a task of this night: by the name of its group in the plan, and by its key.
type taskKey struct{ group, key string }

// A tryName names a try: by the name of its group in the store, by its key, and by its number.
type tryName struct {
	group, key string
	number     int
}

// How a task stands in the store, by its last try.
const (
	phaseOK          = "success"
	phaseFailed      = "error"
	phaseInterrupted = "interrupted"
)

// A pastTask is what the store has of a task.
type pastTask struct {
	last  tryName
	phase string
	text  string // of its error
}

// A pastScope is what the store has of a scope, or of the scope of a group.
type pastScope struct {
	moment      int64 // of its deadline, or 0
	words       string
	isDone      bool
	err, reason error // Err and Cause of the context, if it is done
}

// A past is what the store has of a night.
type past struct {
	night     int
	tasks     map[taskKey]*pastTask
	scopes    map[string]*pastScope
	order     []taskKey // the tasks, in the order of their last tries
	used      int       // rows for tasks
	room      int
	groups    int // rows for groups
	groupRoom int
}

// The rows of `night inspect --json`.
type rows struct {
	Room   struct{ Groups, Tasks int }
	Groups []struct{ Name string }
	Scopes []scopeRow
	Tasks  []taskRow
}

type scopeRow struct {
	Name          string
	Key, Value    *string
	Deadline      *int64
	Done          bool
	Reason, Cause *string
}

type taskRow struct {
	GroupName string `json:"group_name"`
	Argument  string
	Phase     string
	Error     *string
}

// readPast asks the store for what it has of a night.
func readPast(program, path string, night int) (*past, error) {
	out, err := ask(program, "inspect", "--json", path)
	if err != nil {
		return nil, err
	}
	var all rows
	if err := json.Unmarshal(out, &all); err != nil {
		return nil, fmt.Errorf("pokhnier: night inspect --json: %w", err)
	}
	p := &past{night: night, tasks: map[taskKey]*pastTask{},
		scopes: map[string]*pastScope{}, used: len(all.Tasks), room: all.Room.Tasks,
		groups: len(all.Groups), groupRoom: all.Room.Groups}
	for _, row := range all.Scopes {
		p.addScope(row)
	}
	tries := map[taskKey]int{}
	for _, row := range all.Tasks {
		named := taskKey{row.GroupName, row.Argument}
		p.addTask(row, tries[named])
		tries[named]++
	}
	return p, nil
}

// inPlan returns the name in the plan of a group of the store, if it is one of this night. Group
// `dumps` is `dumps--2` in night 2, and `dumps--2-3` once it has its third scope there.
func (p *past) inPlan(name string) (string, bool) {
	group, rest, isLater := strings.Cut(name, "--")
	if !isLater {
		return group, p.night == 1
	}
	number, round, _ := strings.Cut(rest, "-")
	_, noRound := strconv.Atoi(round)
	return group, number == strconv.Itoa(p.night) && (round == "" || noRound == nil)
}

func (p *past) addScope(row scopeRow) {
	if name, is := cutSaid(row.Name); is {
		if group, is := p.inPlan(name); is && row.Value != nil && p.scopes[group] != nil {
			p.scopes[group].words = *row.Value
		}
		return
	}
	group, is := p.inPlan(row.Name)
	if !is {
		return
	}
	scope := &pastScope{isDone: row.Done}
	if row.Deadline != nil {
		scope.moment = *row.Deadline
	}
	if row.Done && row.Reason != nil && row.Cause != nil {
		scope.err, scope.reason = errorOf(*row.Reason), errorOf(*row.Cause)
	}
	p.scopes[group] = scope
}

// cutSaid returns the name of the scope that has its words in a scope of this name.
func cutSaid(name string) (string, bool) {
	if its, is := strings.CutSuffix(name, "--said"); is {
		return its, true
	}
	return strings.CutSuffix(name, "--s") // if the name is too long for the word
}

// end notes that a scope has ended in this run.
func (p *past) end(name string, err, cause error) {
	scope := p.scopes[name]
	if scope == nil {
		scope = &pastScope{}
		p.scopes[name] = scope
	}
	if !scope.isDone {
		scope.isDone, scope.err, scope.reason = true, err, cause
	}
}

func (p *past) addTask(row taskRow, number int) {
	name := tryName{row.GroupName, row.Argument, number}
	group, is := p.inPlan(row.GroupName)
	if !is || row.Error != nil && *row.Error == "withdrawn" {
		return
	}
	task := &pastTask{last: name, phase: row.Phase}
	if row.Error != nil {
		task.text = *row.Error
	}
	p.tasks[taskKey{group, row.Argument}] = task
	p.order = append(p.order, taskKey{group, row.Argument})
}

// hasFailed reports whether the last try of a task has failed. One that was canceled hasn't.
func (t *pastTask) hasFailed() bool {
	return t.phase == phaseFailed && !strings.HasPrefix(t.text, canceledText)
}
