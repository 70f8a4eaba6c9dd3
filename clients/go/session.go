package pokhnier

import (
	"bufio"
	"bytes"
	"errors"
	"io"
	"os/exec"
	"strings"
	"time"
)

// answerTime is how long `night` may take for an answer. After that it is killed.
var answerTime = time.Minute

// A session is a run of `night drive`.
type session struct {
	command *exec.Cmd
	in      io.WriteCloser
	out     *bufio.Reader
	wrote   bytes.Buffer // to standard error
	isOver  bool
}

func openSession(program, path string) (*session, error) {
	s := &session{command: apart(exec.Command(program, "drive", path))}
	s.command.Stderr = &s.wrote
	in, err := s.command.StdinPipe()
	if err != nil {
		return nil, err
	}
	out, err := s.command.StdoutPipe()
	if err != nil {
		return nil, err
	}
	s.in, s.out = in, bufio.NewReaderSize(out, 1<<16)
	return s, s.command.Start()
}

// ask writes a part, and returns the lines of its answer. The program takes a part only when its
// empty line has come, and so does this client with an answer: neither takes half of one.
func (s *session) ask(lines []string) ([]string, error) {
	timer := time.AfterFunc(answerTime, func() { s.command.Process.Kill() })
	defer timer.Stop()
	var part strings.Builder
	for _, line := range lines {
		part.WriteString(line)
		part.WriteByte('\n')
	}
	part.WriteByte('\n')
	// If this fails, the program has ended, and may have said why.
	_, writing := io.WriteString(s.in, part.String())
	answer, err := s.read()
	return answer, errors.Join(err, writing)
}

func (s *session) read() ([]string, error) {
	var lines []string
	for {
		line, err := s.out.ReadString('\n')
		if err != nil {
			return nil, io.ErrUnexpectedEOF
		}
		if line == "\n" {
			return lines, nil
		}
		lines = append(lines, line[:len(line)-1])
	}
}

// end ends the input, and waits until the program has ended.
func (s *session) end() error {
	s.in.Close()
	timer := time.AfterFunc(answerTime, func() { s.command.Process.Kill() })
	defer timer.Stop()
	io.Copy(io.Discard, s.out)
	err := s.command.Wait()
	var exit *exec.ExitError
	if errors.As(err, &exit) {
		return &NightError{exit.ExitCode(), s.wrote.String()}
	}
	return err
}
