package pokhnier

import (
	"bytes"
	"encoding/json"
	"fmt"
	"os"
	"unicode/utf16"
)

// The results stand in a file next to the store, and have what doesn't fit into it: results, and
// the full texts of errors. The page ../README.md describes their lines. A line is written before
// the store records what it belongs to, and counts only if the store has recorded that. So the
// results decide nothing.

// How a try is, by the lines of the results.
const (
	lineBegun    = "begun"
	lineOK       = "ok"
	lineError    = "error"
	lineCanceled = "canceled"
)

// A line of the results is about a try, with the names of the plan.
type line struct {
	Night int             `json:"night"`
	Group string          `json:"group"`
	Key   string          `json:"key"`
	Try   int             `json:"try"`
	Is    string          `json:"is"`
	Value json.RawMessage `json:"value,omitempty"`
	Text  *string         `json:"text,omitempty"`
}

// Results are the lines of a night. The file is of the pump alone.
type results struct {
	night  int
	file   *os.File
	values map[taskKey]line
	errors []line // in the order of the failures
}

// openResults opens the lines of a night. It drops those of other nights, and the end of the file
// if a crash left half a line there.
func openResults(path string, night int) (*results, error) {
	text, err := os.ReadFile(path)
	if err != nil && !os.IsNotExist(err) {
		return nil, err
	}
	r := &results{night: night, values: map[taskKey]line{}}
	kept := r.readAll(text)
	if !bytes.Equal(kept, text) || err != nil {
		if err := replaceFile(path, kept); err != nil {
			return nil, err
		}
	}
	if r.file, err = os.OpenFile(path, os.O_WRONLY|os.O_APPEND, 0); err != nil {
		return nil, err
	}
	return r, nil
}

// readAll takes the lines of the night, and returns them.
func (r *results) readAll(text []byte) []byte {
	var kept []byte
	ours := fmt.Appendf(nil, `{"night":%d,`, r.night)
	for _, it := range bytes.SplitAfter(text, []byte("\n")) {
		var found line
		switch isWhole := bytes.HasSuffix(it, []byte("\n")); {
		case !isWhole:
		case bytes.HasPrefix(it, ours) && bytes.HasSuffix(it, []byte(`,"is":"begun"}`+"\n")):
			kept = append(kept, it...) // nothing more is to be read of it
		case json.Unmarshal(it, &found) == nil && found.Night == r.night:
			r.take(found)
			kept = append(kept, it...)
		}
	}
	return kept
}

// take lets a line count.
func (r *results) take(it line) {
	named := taskKey{it.Group, it.Key}
	switch it.Is {
	case lineOK:
		if r.values[named].Try <= it.Try {
			r.values[named] = it
		}
	case lineError, lineCanceled:
		r.errors = append(r.errors, it)
	}
}

// text returns the full text of the error of a try, if there is one.
func (r *results) text(named taskKey, try int) (string, bool) {
	for _, it := range r.errors {
		if (taskKey{it.Group, it.Key}) == named && it.Try == try && it.Text != nil {
			return *it.Text, true
		}
	}
	return "", false
}

// write appends lines, and syncs them if one of them has a value or an error.
func (r *results) write(lines []line) error {
	var text []byte
	needsSync := false
	for _, it := range lines {
		its, err := json.Marshal(it)
		if err != nil {
			return err
		}
		text = append(inASCII(text, its), '\n')
		needsSync = needsSync || it.Value != nil || it.Text != nil
	}
	if len(text) > 0 {
		if _, err := r.file.Write(text); err != nil {
			return err
		}
	}
	if needsSync {
		return r.file.Sync()
	}
	return nil
}

// inASCII appends a text of JSON. In it other characters stand in strings alone, where they can be
// escaped.
func inASCII(to, text []byte) []byte {
	for _, it := range string(text) {
		switch {
		case it < 0x7f:
			to = append(to, byte(it))
		case it < 0x10000:
			to = fmt.Appendf(to, `\u%04x`, it)
		default:
			first, second := utf16.EncodeRune(it)
			to = fmt.Appendf(to, `\u%04x\u%04x`, first, second)
		}
	}
	return to
}

// replaceFile puts another file in the place of this one, and syncs both the file and its name.
func replaceFile(path string, text []byte) error {
	beside := path + ".new"
	file, err := os.Create(beside)
	if err != nil {
		return err
	}
	_, err = file.Write(text)
	if err == nil {
		err = file.Sync()
	}
	if closing := file.Close(); err == nil {
		err = closing
	}
	if err == nil {
		err = os.Rename(beside, path)
	}
	if err != nil {
		os.Remove(beside)
		return err
	}
	return syncFolder(path)
}
