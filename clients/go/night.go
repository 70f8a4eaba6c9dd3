package pokhnier

import (
	"errors"
	"fmt"
	"os"
	"os/exec"
	"path/filepath"
	"syscall"
)

// mostLost is how many times in a row `night` may be lost before the store is.
const mostLost = 5

// findNight returns the path of the program `night`: that of the variable NIGHT, one in the folder
// of this program, or one on the path.
func findNight() (string, error) {
	if named := os.Getenv("NIGHT"); named != "" {
		found, err := exec.LookPath(named)
		if err != nil {
			return "", fmt.Errorf("pokhnier: NIGHT names no program: %w", err)
		}
		return filepath.Abs(found)
	}
	if own, err := os.Executable(); err == nil {
		beside := filepath.Join(filepath.Dir(own), "night")
		if found, err := exec.LookPath(beside); err == nil {
			return found, nil
		}
	}
	found, err := exec.LookPath("night")
	if err != nil {
		return "", fmt.Errorf("pokhnier: no program night: set NIGHT or PATH: %w", err)
	}
	return filepath.Abs(found)
}

// wholePath returns the path of a store, without links: the files next to it are found whatever
// link leads to it, and also if this program changes its folder.
func wholePath(path string) (string, error) {
	if found, err := filepath.EvalSymlinks(path); err == nil {
		path = found
	}
	return filepath.Abs(path)
}

// apart starts a process in a group of its own, so that Ctrl-C at the terminal doesn't reach it.
func apart(command *exec.Cmd) *exec.Cmd {
	command.SysProcAttr = &syscall.SysProcAttr{Setpgid: true}
	return command
}

// ask runs `night` to its end, and returns what it printed.
func ask(program string, arguments ...string) ([]byte, error) {
	out, err := apart(exec.Command(program, arguments...)).Output()
	var exit *exec.ExitError
	if errors.As(err, &exit) {
		return nil, &NightError{exit.ExitCode(), string(exit.Stderr)}
	}
	return out, err
}

// ensureStore makes a store if there is none. Results of an earlier one of this name are removed.
func ensureStore(program, path string) error {
	if _, err := os.Stat(path); !errors.Is(err, os.ErrNotExist) {
		return err
	}
	if err := os.Remove(path + ".results"); err != nil && !errors.Is(err, os.ErrNotExist) {
		return err
	}
	return format(program, path)
}

// format makes a store next to its place, and gives it its name only when it is complete. So a
// crash leaves no half of a store.
func format(program, path string) error {
	beside := path + ".new"
	defer os.Remove(beside)
	for try := 1; ; try++ {
		os.Remove(beside)
		_, err := ask(program, "format", "--new", beside)
		if err == nil {
			break
		}
		if !wasKilled(err) || try == mostLost {
			return err
		}
	}
	if err := os.Link(beside, path); err != nil && !errors.Is(err, os.ErrExist) {
		return err
	}
	return syncFolder(path)
}

// wasKilled reports whether `night` was ended by a signal.
func wasKilled(err error) bool {
	var ended *NightError
	return errors.As(err, &ended) && ended.Status < 0
}

// syncFolder makes the names in the folder of a file durable.
func syncFolder(path string) error {
	folder, err := os.Open(filepath.Dir(path))
	if err != nil {
		return err
	}
	defer folder.Close()
	return folder.Sync()
}
