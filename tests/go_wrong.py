"""Mistakes that the client for Go could make. tests/clients_go has to find each of them.

Each is an edit of a file of clients/go in a copy, and names what finds it: tests of the module, or
nights that are killed.
"""

from __future__ import annotations

from dataclasses import dataclass

NIGHTS = ""


@dataclass(frozen=True)
class Wrong:
    """What it does, the file, the text that is replaced, the new one, and the test."""
    does: str
    file: str
    old: str
    new: str
    test: str = NIGHTS


WRONGS = {
    "early": Wrong(
        "reports a result before the end is durable", "command.go",
        "	c.phase, c.result, c.err, c.text = hasEnded, result, err, text\n",
        "	c.phase, c.result, c.err, c.text = hasEnded, result, err, text\n"
        "	if c.then != nil {\n		go c.then(result, err)\n		c.then = nil\n	}\n"),
    "forgets": Wrong(
        "says of a good end that nobody knows it", "parts.go",
        "	line := fmt.Sprintf(\"ended %d ok\", c.task)\n",
        "	line := fmt.Sprintf(\"gone %d\", c.task)\n"),
    "renames": Wrong(
        "gives a key another name in each run", "names.go",
        "func keyName(text string) string {\n",
        "func keyName(text string) string {\n	text += strconv.Itoa(os.Getpid())\n"),
    "halves": Wrong(
        "takes half an answer", "session.go",
        "			return nil, io.ErrUnexpectedEOF\n",
        "			if len(lines) > 0 {\n				return append(lines, \"durable\"), nil\n			}\n"
        "			return nil, io.ErrUnexpectedEOF\n", "TestHalfAnAnswerIsntTaken"),
    "unwritten": Wrong(
        "writes the results of a run at its end alone", "results.go",
        "	if len(text) > 0 {\n",
        "	if r.kept = append(r.kept, text...); len(lines) > 0 {\n		return nil\n	}\n"
        "	if text = r.kept; len(text) > 0 {\n"),
    "orphans": Wrong(
        "doesn't name the functions that go on after `night` has died", "sessions.go",
        "		case phase == phaseInterrupted:\n",
        "		case phase == phaseInterrupted:\n			c.phase = isWaiting\n			continue\n"
        "		case phase == \"none\":\n"),
    "blames": Wrong(
        "takes an error for the first one that the program doesn't name", "failures.go",
        "		if it.text == text {\n", "		if it.text != text {\n",
        "TestTheFirstErrorAfterAnInterruption"),
    "unasked": Wrong(
        "doesn't ask for the first error of an earlier run", "group.go",
        "		err = g.askFirst()\n", "", "TestTheFirstErrorOutlivesACrash"),
    "stale": Wrong(
        "keeps a first error whose task was repeated well", "failures.go",
        "		if it.key == c.key {\n			return true\n",
        "		if it.key == c.key {\n			break\n",
        "TestARepeatedFailureIsNone"),
    "pools": Wrong(
        "adds no pool for a limit that comes later", "parts.go",
        "		p.lines = append(p.lines, poolLine)\n", "", "TestManyLimits"),
    "again": Wrong(
        "calls a task again that it has left to the next run", "calls.go",
        "	if why, is := s.left[named]; is {\n", "	if why := s.left[named]; false {\n",
        "TestATaskThatWasLeftIsCalledAgain"),
    "retries": Wrong(
        "waits for a retry although this run ends", "standings.go",
        "	if local := s.localCause(c); local != nil {\n",
        "	if local := s.localCause(c); false {\n", "TestARetryDoesntOutliveItsRun"),
    "blocks": Wrong(
        "calls the functions of AfterFunc before it goes on", "ctx.go",
        "c.onEnd(func() { go f() })", "c.onEnd(f)", "TestAfterFuncIsCalledUnderAMutex"),
    "leaks": Wrong(
        "leaves files open if a store can't be opened", "store.go",
        "		s.closeFiles()\n		return nil, err\n", "		lock.Close()\n		return nil, err\n",
        "TestNothingIsLeftOpen"),
    "fails": Wrong(
        "records an error that the end of this run has caused", "command.go",
        "	if local == nil && err != nil && c.why.err == nil {\n",
        "	if local == nil && err != nil && c.why.err == nil && s.cut == nil {\n",
        "TestCloseRecordsNoFailure"),
    "restarts": Wrong(
        "counts a timeout from the start of each run", "scope.go",
        "	c.moment, c.words, c.cause = r.moment,",
        "	c.moment, c.words, c.cause = momentOf(wish.at),",
        "TestATimeoutCountsFromTheFirstRun"),
    "redraws": Wrong(
        "has another value in each run", "values.go",
        "		c.values[key] = text\n", "		c.values[key] = text[:0] + wishes[key]\n",
        "TestValuesAreThoseOfTheFirstRun"),
    "cancels": Wrong(
        "lets a cancel end this run alone", "cancel.go",
        "	s.todo.dones = append(s.todo.dones, done{r, why})\n", "	_ = r\n",
        "TestADurableCancel"),
    "abandons": Wrong(
        "doesn't say that a task was abandoned", "group.go",
        "row.phase == phaseInterrupted && !g.called[named.key] {",
        "row.phase == phaseInterrupted && g.called[named.key] {", "TestAbandoned"),
    "exits": Wrong(
        "waits for a function that has ended its goroutine", "command.go",
        "		c.group.s.takeEnd(c, nil, ErrGoexit)\n", "", "TestGoexit"),
    "panics": Wrong(
        "takes a panic for a failure", "command.go",
        "			panic(why)\n", "			_ = why\n", "TestAPanicIsntRecorded"),
    "shares": Wrong(
        "opens a store that another program has", "lock.go",
        "syscall.LOCK_EX|syscall.LOCK_NB", "syscall.LOCK_UN", "TestAnotherRunHasTheLock"),
}
