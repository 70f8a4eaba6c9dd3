"""A model of a crew's threads: the bodies of `crates/run_crew/src` that wait and wake, what
each of their statements does, and every order in which the threads can take them.

BODIES has the statements as the source has them, by file and function. A line `// .. is dropped`
stands where a guard goes that no statement drops. EFFECTS says what a statement does; what isn't
there can't be run. `explore` takes the steps of all threads in every order, and returns the first
state that must not be.

A step is a lock that is taken, a sleep, a wake-up, the turns of a task, or a join. What lies under
a lock is touched under it alone, so a statement that touches nothing else is of one step with the
statement before it. Turns look at a scope under the lock, and touch no counter: of that there is no
step.
"""

from __future__ import annotations

import re
from collections import deque
from collections.abc import Callable, Iterator
from dataclasses import dataclass

Place = tuple[str, str]

BODIES: dict[Place, str] = {
    ("arrival_counts.rt", "come"): """
        self.awake = self.awake.saturating_add(1);
        """,
    ("arrival_counts.rt", "go"): """
        let is_last = self.is_last();
        self.awake = self.awake.saturating_sub(1);
        is_last
        """,
    ("arrival_counts.rt", "is_last"): """
        self.awake == 1
        """,
    ("arrival_counts.rt", "sleep"): """
        self.awake = self.awake.saturating_sub(1);
        self.asleep = self.asleep.saturating_add(1);
        self.flushes
        """,
    ("arrival_counts.rt", "wake"): """
        if self.flushes == flushes {
            self.asleep = self.asleep.saturating_sub(1);
            self.awake = self.awake.saturating_add(1);
        }
        """,
    ("arrival_counts.rt", "save"): """
        self.awake = self.awake.saturating_add(self.asleep);
        self.asleep = 0;
        self.flushes = self.flushes.wrapping_add(1);
        """,
    ("arrivals.rt", "come"): """
        self.counts.lock(rt).come();
        """,
    ("arrivals.rt", "go"): """
        if self.counts.lock(rt).go() {
            self.moved.notify_one();
        }
        """,
    ("arrivals.rt", "is_last"): """
        self.counts.lock(rt).is_last()
        """,
    ("arrivals.rt", "sleep"): """
        let flushes = self.counts.lock(rt).sleep();
        let guard = self.moved.wait(rt, guard);
        self.counts.lock(rt).wake(flushes);
        guard
        """,
    ("arrivals.rt", "wake"): """
        self.counts.lock(rt).save();
        self.moved.notify_all();
        """,
    ("saves.rt", "save"): """
        let mut place = shared.lock(rt);
        for _ in rt.forever() {
            let durable = place.durable();
            if event <= durable {
                arrivals.go(rt);
                // place is dropped
                return Ok(durable);
            }
            if !arrivals.is_last(rt) {
                place = arrivals.sleep(rt, place);
                continue;
            }
            let flushed = place.flush();
            arrivals.wake(rt, &place);
            if let Err(trouble) = flushed {
                arrivals.go(rt);
                // place is dropped
                return Err(trouble);
            }
        }
        unreachable!()
        """,
    ("flush_signals.rt", "wake"): """
        let mut marks = self.marks.lock(rt);
        marks.event = marks.event.max(event);
        self.moved.notify_all();
        """,
    ("flush_signals.rt", "close"): """
        let mut marks = self.marks.lock(rt);
        marks.closed = true;
        self.moved.notify_all();
        """,
    ("flush_signals.rt", "wait"): """
        let mut marks = self.marks.lock(rt);
        for _ in rt.forever() {
            if marks.closed {
                return None;
            }
            if marks.event > heard {
                return Some(marks.event);
            }
            marks = self.moved.wait(rt, marks);
        }
        unreachable!()
        """,
    ("thread_calls.rt", "start"): """
        self.arrivals.come(self.rt);
        let mut place = self.shared.lock(self.rt);
        let started = place.start_as(own);
        if started.is_err() {
            self.arrivals.go(self.rt);
        }
        // place is dropped
        started
        """,
    ("thread_calls.rt", "save"): """
        save(self.rt, self.shared, self.arrivals, event)
        """,
    ("thread_calls.rt", "finish"): """
        self.arrivals.come(self.rt);
        let mut place = self.shared.lock(self.rt);
        let finished = place.finish_as(own, task, outcome);
        self.arrivals.go(self.rt);
        // place is dropped
        finished
        """,
    ("thread_calls.rt", "wake"): """
        self.signal.wake(self.rt, event);
        """,
    ("flusher_calls.rt", "wait"): """
        self.signal.wait(self.rt, heard)
        """,
    ("flusher_calls.rt", "save"): """
        self.arrivals.come(self.rt);
        save(self.rt, self.shared, self.arrivals, event)
        """,
    ("flusher_calls.rt", "save_wakes"): """
        let mut heard = 0;
        for _ in rt.forever() {
            let Some(event) = flusher.wait(heard) else {
                return;
            };
            heard = event;
            let _ = flusher.save(event);
        }
        unreachable!()
        """,
    ("courses.rt", "take_tasks"): """
        for _ in rt.forever() {
            if !take_task(worker, own, notes) {
                return;
            }
        }
        unreachable!()
        """,
    ("courses.rt", "take_task"): """
        if notes.is_full() {
            return false;
        }
        let Some(started) = start(worker, own) else {
            return false;
        };
        let task = started.info.task;
        let outcome = run(worker, &started.info);
        let Ok(event) = worker.finish(own, task, &outcome) else {
            return false;
        };
        notes.note(Note {
            event,
            task,
            outcome,
        });
        worker.report(task);
        worker.wake(event);
        true
        """,
    ("courses.rt", "start"): """
        let Ok(started) = worker.start(own) else {
            return None;
        };
        match worker.save(started.event) {
            Ok(_) => Some(started),
            Err(_) => None,
        }
        """,
    ("workers.rt", "work"): """
        let WorkerStart {
            jobs,
            mut own,
            mut notes,
        } = self;
        let mut place = ThreadCalls {
            rt,
            shared,
            arrivals,
            signal,
            gate,
            jobs,
        };
        take_tasks(rt, &mut place, &mut own, &mut notes);
        WorkerEnd { own, notes }
        """,
    ("nights.rt", "save_at"): """
        let mut flusher = ThreadFlusher {
            rt,
            shared,
            arrivals,
            signal,
        };
        save_wakes(rt, &mut flusher);
        """,
    ("nights.rt", "shifts_of"): """
        let count = workers.len();
        let mut handles = Vec::with_capacity(alloc, count)?;
        let shifts = Vec::with_capacity(alloc, count)?;
        let signal = FlushSignal::new();
        let signal = &signal;
        let arrivals = Arrivals::new();
        let arrivals = &arrivals;
        thread::scope(
            thread::scope_env(),
            rt,
            |scope| -> Result<Vec<WorkerEnd<S, F>>, AllocError> {
                let flusher = scope.spawn(move || save_at(rt, shared, arrivals, signal))?;
                start_each(
                    scope,
                    rt,
                    shared,
                    arrivals,
                    signal,
                    gate,
                    workers,
                    &mut handles,
                );
                let left = joined(rt, gate, handles, shifts, count);
                signal.close(rt);
                flusher.join(rt);
                left
            },
        )
        """,
    ("nights.rt", "start_each"): """
        for worker in workers {
            let promise = ShiftOf {
                gate,
                jobs: Snapshot::of(&worker.jobs),
                place: PhantomData::<T>,
            };
            match scope.spawn_with(
                promise,
                move || -> WorkerEnd<S, F> { worker.work(rt, shared, arrivals, signal, gate) },
            ) {
                Ok(handle) => handles.push_reserved(handle),
                Err(_) => {}
            }
        }
        """,
    ("nights.rt", "joined"): """
        for handle in handles {
            shifts.push_reserved(handle.join(rt));
        }
        if shifts.len() < count {
            return Err(AllocError);
        }
        Ok(shifts)
        """,
    ("nights.rt", "run_night"): """
        let lists = run_shifts(rt, alloc, shared, own, jobs, gate);
        let last = shared.lock(rt).flush_as(own);
        Ok((lists?, last))
        """,
    ("nights.rt", "run_shifts"): """
        let Ok(mut notes) = Vec::with_capacity(alloc, jobs.len()) else {
            return Err(Fault::Memory);
        };
        let Ok(workers) = workers_of(alloc, own, jobs) else {
            return Err(Fault::Memory);
        };
        let Ok(shifts) = shifts_of(rt, alloc, shared, workers, gate) else {
            return Err(Fault::Memory);
        };
        gather(own, shifts, &mut notes);
        Ok(notes)
        """,
}


def statements(body: str) -> list[str]:
    """The statements of a body and the heads of its blocks, in order, without comments, contracts
    of closures, fields of literals and patterns, and `self.`."""
    return [it for it in pieces(re.sub(r"//[^\n]*", "", body)) if it not in ("{", "}")]


def pieces(body: str) -> list[str]:
    """The same with the braces, and with the comments that the body has."""
    body = re.sub(r"\b(?:requires|ensures)\b[^{;]*\{[^{}]*\}", "", body)
    body = re.sub(r"\b([A-Z]\w*) \{[^{}]*\}", r"\1", body)
    body = re.sub(r"\bself\.", "", body)
    body = re.sub(r"//([^\n]*)", r";//\1;", body)
    found = [re.sub(r"\s+", " ", it).strip(" ") for it in re.split(r"([;{}])", body)]
    return [it for it in found if it and it not in (";", ",", ")", ",)", ", )")]


@dataclass(frozen=True)
class Crew:
    """A crew: its workers, the tasks that are ready, whether the device fails at some flush, and
    whether a sleep may end for no reason."""

    workers: int
    tasks: int
    fails: bool = False
    wakes: bool = False

    def __str__(self) -> str:
        beside = [", a device that fails"] * self.fails + [", idle wake-ups"] * self.wakes
        return f"{self.workers} workers, {self.tasks} tasks{''.join(beside)}"


# What lies under the lock, the arrivals and the signal, and then each thread.
State = tuple[tuple[int, ...], ...]


class Night:
    """A state of a crew, all of it numbers. The last two threads are the flusher and the one that
    joins all others. Workers are alike: in a state their order is that of their numbers."""

    __slots__ = ("locked", "events", "durable", "ready", "broken", "awake", "asleep", "flushes",
                 "signaled", "closed", "dozes",
                 "at", "event", "test", "ok", "kept", "sleeps", "crew", "ends", "pick", "picks",
                 "is_idle")

    def __init__(self, crew: Crew, ends: list[int]) -> None:
        # the lock, and what lies under it
        self.locked = self.events = self.durable = self.broken = 0
        self.ready = crew.tasks
        # the counters of the arrivals
        self.awake = self.asleep = self.flushes = 0
        # the signal: its event, whether it is closed, and how the flusher dozes there
        self.signaled = self.closed = self.dozes = 0
        # of each thread its next statement, its event, the last test, what was answered, the number
        # that a statement keeps for another one, and how it sleeps at the arrivals
        self.at, self.event, self.test, self.ok, self.kept, self.sleeps = (
            [0] * len(ends) for _ in range(6))
        self.crew, self.ends = crew, ends
        # which of how many ways a step takes, and whether it was a wake-up for no reason
        self.pick, self.picks, self.is_idle = 0, 1, False

    def state(self) -> State:
        shared = (self.locked, self.events, self.durable, self.ready, self.broken, self.awake,
                  self.asleep, self.flushes, self.signaled, self.closed, self.dozes)
        threads = [*zip(self.at, self.event, self.test, self.ok, self.kept, self.sleeps)]
        return (shared, *sorted(threads[:-2]), *threads[-2:])

    def restore(self, state: State) -> None:
        (self.locked, self.events, self.durable, self.ready, self.broken, self.awake,
         self.asleep, self.flushes, self.signaled, self.closed, self.dozes) = state[0]
        self.at, self.event, self.test, self.ok, self.kept, self.sleeps = (
            [*column] for column in zip(*state[1:]))
        self.pick, self.picks, self.is_idle = 0, 1, False


# How a thread sleeps: not, until it is woken, and until it has the lock again.
UP, ASLEEP, WOKEN = range(3)
# What a statement does: false where it can't be done yet.
Act = Callable[[Night, int], bool | None]


@dataclass(frozen=True)
class Effect:
    """What a statement does, and whether it is a step of its own."""

    act: Act
    is_step: bool


@dataclass(frozen=True)
class Call:
    """A call of another body that is modelled."""

    place: Place


EFFECTS: dict[Place, tuple[Effect | Call, ...]] = {}


def does(file: str, *lines: str, is_step: bool = False) -> Callable[[Act], Act]:
    """The function below does what these statements of a file do."""
    def put(act: Act) -> Act:
        for line in lines:
            EFFECTS[file, line] = (*EFFECTS.get((file, line), ()), Effect(act, is_step))
        return act
    return put


def calls(file: str, line: str, called: str, function: str) -> None:
    """This statement of a file calls a function of a file."""
    EFFECTS[file, line] = (*EFFECTS.get((file, line), ()), Call((called, function)))


# The arrivals.

COUNTED = {"counts.lock(rt).come()": "come", "if counts.lock(rt).go()": "go",
           "counts.lock(rt).is_last()": "is_last", "let flushes = counts.lock(rt).sleep()": "sleep",
           "counts.lock(rt).wake(flushes)": "wake", "counts.lock(rt).save()": "save"}


@does("arrivals.rt", *COUNTED, is_step=True)
def lock_counts(it: Night, me: int) -> None:
    pass


for _line, _function in COUNTED.items():
    calls("arrivals.rt", _line, "arrival_counts.rt", _function)
calls("arrival_counts.rt", "let is_last = is_last()", "arrival_counts.rt", "is_last")


@does("arrival_counts.rt", "awake = awake.saturating_add(1)")
def come(it: Night, me: int) -> None:
    it.awake += 1


@does("arrival_counts.rt", "awake = awake.saturating_sub(1)")
def go(it: Night, me: int) -> None:
    it.awake = max(0, it.awake - 1)


@does("arrival_counts.rt", "awake == 1")
def is_one(it: Night, me: int) -> None:
    it.test[me] = it.awake == 1


@does("arrival_counts.rt", "asleep = asleep.saturating_add(1)")
def lie_down(it: Night, me: int) -> None:
    it.asleep += 1


@does("arrival_counts.rt", "asleep = asleep.saturating_sub(1)")
def get_up(it: Night, me: int) -> None:
    it.asleep = max(0, it.asleep - 1)


@does("arrival_counts.rt", "flushes")
def keep_flushes(it: Night, me: int) -> None:
    it.kept[me] = it.flushes


@does("arrival_counts.rt", "if flushes == flushes")
def is_no_flush(it: Night, me: int) -> None:
    it.test[me], it.kept[me] = it.flushes == it.kept[me], 0


@does("arrival_counts.rt", "awake = awake.saturating_add(asleep)")
def count_sleepers(it: Night, me: int) -> None:
    it.awake += it.asleep


@does("arrival_counts.rt", "asleep = 0")
def count_none(it: Night, me: int) -> None:
    it.asleep = 0


@does("arrival_counts.rt", "flushes = flushes.wrapping_add(1)")
def count_flush(it: Night, me: int) -> None:
    it.flushes += 1


@does("arrivals.rt", "let guard = moved.wait(rt, guard)", is_step=True)
def fall_asleep(it: Night, me: int) -> None:
    it.sleeps[me] = ASLEEP
    it.locked = 0


@does("arrivals.rt", "let guard = moved.wait(rt, guard)", is_step=True)
def wake_up(it: Night, me: int) -> bool:
    it.is_idle = it.sleeps[me] == ASLEEP
    if it.locked or it.is_idle and not it.crew.wakes:
        return False
    it.sleeps[me] = UP
    it.locked = 1
    return True


@does("arrivals.rt", "moved.notify_one()", is_step=True)
def wake_one(it: Night, me: int) -> None:
    sleepers = [one for one, how in enumerate(it.sleeps) if how == ASLEEP]
    it.picks = max(1, len(sleepers))
    if sleepers:
        it.sleeps[sleepers[it.pick]] = WOKEN


@does("arrivals.rt", "moved.notify_all()", is_step=True)
def wake_all(it: Night, me: int) -> None:
    it.sleeps = [WOKEN if how == ASLEEP else how for how in it.sleeps]


# The lock, and what lies under it.

@does("saves.rt", "let mut place = shared.lock(rt)", is_step=True)
@does("thread_calls.rt", "let mut place = shared.lock(rt)", is_step=True)
def lock(it: Night, me: int) -> bool:
    if it.locked:
        return False
    it.locked = 1
    return True


@does("saves.rt", "// place is dropped")
@does("thread_calls.rt", "// place is dropped")
def unlock(it: Night, me: int) -> None:
    it.locked = 0


@does("thread_calls.rt", "let started = place.start_as(own)")
def start_as(it: Night, me: int) -> None:
    it.ok[me] = it.ready > 0 and not it.broken
    if it.ok[me]:
        it.ready -= 1
        it.events += 1
        it.event[me] = it.events


@does("thread_calls.rt", "let finished = place.finish_as(own, task, outcome)")
def finish_as(it: Night, me: int) -> None:
    it.ok[me] = not it.broken
    if it.ok[me]:
        it.events += 1
        it.event[me] = it.events


@does("thread_calls.rt", "if started.is_err()")
def is_err(it: Night, me: int) -> None:
    it.test[me] = not it.ok[me]


@does("saves.rt", "if let Err(trouble) = flushed")
def is_failed(it: Night, me: int) -> None:
    it.test[me], it.ok[me] = not it.ok[me], False


@does("thread_calls.rt", "started", "finished")
def answer(it: Night, me: int) -> None:
    it.test[me], it.ok[me] = it.ok[me], False


@does("saves.rt", "if event <= durable")
def is_durable(it: Night, me: int) -> None:
    it.test[me] = it.event[me] <= it.durable


@does("saves.rt", "let flushed = place.flush()")
def flush(it: Night, me: int) -> None:
    it.picks = 2 if it.crew.fails and not it.broken else 1
    it.broken |= it.pick == 1
    it.ok[me] = not it.broken
    if it.ok[me]:
        it.durable = it.events


@does("nights.rt", "let last = shared.lock(rt).flush_as(own)", is_step=True)
def flush_last(it: Night, me: int) -> bool:
    if it.locked:
        return False
    flush(it, me)
    return True


# The signal. A turn of its lock is one step.

@does("flush_signals.rt", "let mut marks = marks.lock(rt)", is_step=True)
def lock_marks(it: Night, me: int) -> None:
    pass


@does("flush_signals.rt", "marks.event = marks.event.max(event)")
def wake(it: Night, me: int) -> None:
    it.signaled = max(it.signaled, it.event[me])


@does("flush_signals.rt", "marks.event = event")
def signal_last(it: Night, me: int) -> None:
    it.signaled = it.event[me]


@does("flush_signals.rt", "marks.event = marks.event.min(event)")
def signal_first(it: Night, me: int) -> None:
    it.signaled = min(it.signaled or it.event[me], it.event[me])


@does("flush_signals.rt", "marks.closed = true")
def close(it: Night, me: int) -> None:
    it.closed = 1


@does("flush_signals.rt", "moved.notify_all()")
def call(it: Night, me: int) -> None:
    it.dozes = WOKEN if it.dozes == ASLEEP else it.dozes


@does("flush_signals.rt", "if marks.closed")
def is_closed(it: Night, me: int) -> None:
    it.test[me] = it.closed


@does("flush_signals.rt", "if marks.event > heard")
def is_later(it: Night, me: int) -> None:
    it.test[me] = it.signaled > it.event[me]


@does("flush_signals.rt", "return Some(marks.event)")
def hear(it: Night, me: int) -> None:
    it.test[me], it.event[me] = True, it.signaled


@does("flush_signals.rt", "marks = moved.wait(rt, marks)")
def doze(it: Night, me: int) -> None:
    it.dozes = ASLEEP


@does("flush_signals.rt", "marks = moved.wait(rt, marks)", is_step=True)
def rise(it: Night, me: int) -> bool:
    it.is_idle = it.dozes == ASLEEP
    if it.is_idle and not it.crew.wakes:
        return False
    it.dozes = UP
    return True


# Workers, the flusher, and the thread that joins them.

@does("courses.rt", "let outcome = run(worker, &started.info)", is_step=True)
def make_turns(it: Night, me: int) -> None:
    pass


@does("flusher_calls.rt", "let mut heard = 0")
def hear_nothing(it: Night, me: int) -> None:
    it.event[me] = 0


@does("thread_calls.rt", "let event = event - 1")
def take_earlier(it: Night, me: int) -> None:
    it.event[me] -= 1


@does("courses.rt", "true")
def forget_event(it: Night, me: int) -> None:
    it.test[me], it.event[me] = True, 0


@does("courses.rt", "return false")
def end(it: Night, me: int) -> None:
    it.test[me], it.event[me] = False, 0


@does("saves.rt", "return Ok(durable)")
@does("arrival_counts.rt", "if true")
@does("thread_calls.rt", "if true")
@does("nights.rt", "let Ok(mut notes) = Vec::with_capacity(alloc, jobs.len()) else",
      "let Ok(workers) = workers_of(alloc, own, jobs) else", "left")
def yes(it: Night, me: int) -> None:
    it.test[me] = True


@does("saves.rt", "return Err(trouble)")
@does("flush_signals.rt", "return None")
@does("courses.rt", "if notes.is_full()", "return None")
@does("nights.rt", "if shifts.len() < count")
def no(it: Night, me: int) -> None:
    it.test[me] = False


@does("nights.rt", "shifts.push_reserved(handle.join(rt))", is_step=True)
def join_workers(it: Night, me: int) -> bool:
    return it.at[:-2] == it.ends[:-2]


@does("nights.rt", "flusher.join(rt)", is_step=True)
def join_flusher(it: Night, me: int) -> bool:
    return it.at[-2] == it.ends[-2]


def invert(it: Night, me: int) -> None:
    it.test[me] = not it.test[me]


for _file in ("saves.rt", "thread_calls.rt", "flusher_calls.rt"):
    calls(_file, "arrivals.come(rt)", "arrivals.rt", "come")
    calls(_file, "arrivals.go(rt)", "arrivals.rt", "go")
calls("saves.rt", "if !arrivals.is_last(rt)", "arrivals.rt", "is_last")
does("saves.rt", "if !arrivals.is_last(rt)")(invert)
calls("saves.rt", "place = arrivals.sleep(rt, place)", "arrivals.rt", "sleep")
calls("saves.rt", "arrivals.wake(rt, &place)", "arrivals.rt", "wake")
calls("thread_calls.rt", "save(rt, shared, arrivals, event)", "saves.rt", "save")
calls("thread_calls.rt", "signal.wake(rt, event)", "flush_signals.rt", "wake")
calls("flusher_calls.rt", "signal.wait(rt, heard)", "flush_signals.rt", "wait")
calls("flusher_calls.rt", "save(rt, shared, arrivals, event)", "saves.rt", "save")
calls("flusher_calls.rt", "let Some(event) = flusher.wait(heard) else", "flusher_calls.rt", "wait")
calls("flusher_calls.rt", "let _ = flusher.save(event)", "flusher_calls.rt", "save")
does("flusher_calls.rt", "let _ = flusher.save(event)")(no)
calls("courses.rt", "if !take_task(worker, own, notes)", "courses.rt", "take_task")
does("courses.rt", "if !take_task(worker, own, notes)")(invert)
calls("courses.rt", "let Some(started) = start(worker, own) else", "courses.rt", "start")
calls("courses.rt", "let Ok(started) = worker.start(own) else", "thread_calls.rt", "start")
calls("courses.rt", "match worker.save(started.event)", "thread_calls.rt", "save")
calls("courses.rt", "let Ok(event) = worker.finish(own, task, &outcome) else", "thread_calls.rt",
      "finish")
calls("courses.rt", "worker.wake(event)", "thread_calls.rt", "wake")
calls("workers.rt", "take_tasks(rt, &mut place, &mut own, &mut notes)", "courses.rt", "take_tasks")
calls("nights.rt", "save_wakes(rt, &mut flusher)", "flusher_calls.rt", "save_wakes")
calls("nights.rt", "signal.close(rt)", "flush_signals.rt", "close")
calls("nights.rt", "let lists = run_shifts(rt, alloc, shared, own, jobs, gate)", "nights.rt",
      "run_shifts")
calls("nights.rt", "let Ok(shifts) = shifts_of(rt, alloc, shared, workers, gate) else",
      "nights.rt", "shifts_of")
calls("nights.rt", statements(BODIES["nights.rt", "shifts_of"])[9], "nights.rt", "start_each")
calls("nights.rt", "let left = joined(rt, gate, handles, shifts, count)", "nights.rt", "joined")

# Statements that change nothing of this. A thread that was spawned takes its first step whenever it
# comes to that, so all are there from the beginning.
IDLE: dict[str, tuple[str, ...]] = {
    "arrivals.rt": ("guard",),
    "arrival_counts.rt": ("is_last",),
    "saves.rt": ("let durable = place.durable()",),
    "flusher_calls.rt": ("return", "heard = event"),
    "courses.rt": ("return", "let task = started.info.task", "notes.note(Note)",
                   "worker.report(task)", "Ok(_) => Some(started), Err(_) => None,"),
    "workers.rt": ("let WorkerStart = self", "let mut place = ThreadCalls", "WorkerEnd"),
    "nights.rt": ("let mut flusher = ThreadFlusher",
                  *statements(BODIES["nights.rt", "shifts_of"])[:9],
                  *statements(BODIES["nights.rt", "start_each"]), "for handle in handles",
                  "return Err(AllocError)", "Ok(shifts)", "return Err(Fault::Memory)",
                  "gather(own, shifts, &mut notes)", "Ok(notes)", "Ok((lists?, last))"),
}
for _file, _lines in IDLE.items():
    for _line in _lines:
        EFFECTS[_file, _line] = ()


# The code of a thread: an effect, a jump, or a branch that is taken where the last test was false.
Jump = tuple[str, int]
Code = list["Effect | Jump"]


class Reader:
    """Makes the code of a body, with the bodies that it calls in the place of their calls."""

    def __init__(self, bodies: dict[Place, str]) -> None:
        self.bodies = bodies
        self.code: Code = []

    def read(self, place: Place) -> None:
        tokens = pieces(self.bodies[place])
        leaves: list[int] = []
        self.read_block(place[0], iter(tokens), leaves, -1)
        self.settle(leaves)

    def read_block(self, file: str, tokens: Iterator[str], leaves: list[int], loop: int) -> None:
        """A block up to its end. `leaves` gets the places from which the function is left; `loop`
        is the head of the loop around it."""
        line = ""
        for token in tokens:
            if token == "}":
                break
            if token != "{":
                line = token
                self.read_line(file, line, leaves, loop)
            elif line == "for _ in rt.forever()":
                head = len(self.code)
                self.read_block(file, tokens, leaves, head)
                self.code.append(("jump", head))
            elif line.startswith("if ") or line.endswith(" else"):
                self.code.append(("unless" if line.startswith("if ") else "where", -1))
                branch = len(self.code) - 1
                self.read_block(file, tokens, leaves, loop)
                self.settle([branch])
            else:
                self.read_block(file, tokens, leaves, loop)

    def read_line(self, file: str, line: str, leaves: list[int], loop: int) -> None:
        if line in ("for _ in rt.forever()", "unreachable!()"):
            return
        if line == "continue":
            self.code.append(("jump", loop))
            return
        for it in EFFECTS[file, line]:
            if isinstance(it, Call):
                self.read(it.place)
            else:
                self.code.append(it)
        if line.startswith("return"):
            self.code.append(("jump", -1))
            leaves.append(len(self.code) - 1)

    def settle(self, places: list[int]) -> None:
        """Lets these jumps lead to here."""
        for at in places:
            jump = self.code[at]
            assert not isinstance(jump, Effect)
            self.code[at] = (jump[0], len(self.code))


def code_of(bodies: dict[Place, str], function: Place) -> Code:
    reader = Reader(bodies)
    reader.read(function)
    return reader.code


def take_step(it: Night, me: int, code: Code, has_begun: bool = False) -> bool:
    """A thread's next step, and all that is one with it. False where it can't be taken."""
    at = it.at[me]
    while at < len(code):
        line = code[at]
        if isinstance(line, Effect):
            if line.is_step and has_begun:
                break
            if line.act(it, me) is False:
                return False
            has_begun |= line.is_step
            at += 1
        else:
            is_taken = line[0] == "jump" or it.test[me] == (line[0] == "where")
            if line[0] != "jump":
                it.test[me] = False
            at = line[1] if is_taken else at + 1
    it.at[me] = at
    return has_begun


@dataclass(frozen=True)
class Found:
    """What of a crew must not be, or nothing; after how many steps, and of how many states."""

    what: str
    steps: int
    states: int


FAULTS = HANGS, LOSES, LEAVES = (
    "it hangs", "an event doesn't become durable", "an event isn't durable at the end")
# Steps that may take any time: a turn; and the join of the workers, of which one more may be in a
# turn.
SLOW = (*EFFECTS["courses.rt", "let outcome = run(worker, &started.info)"],
        *EFFECTS["nights.rt", "shifts.push_reserved(handle.join(rt))"])


def explore(bodies: dict[Place, str], crew: Crew, most: int) -> Found:
    """Takes the steps of a crew in every order, up to the first state that must not be:

    - nobody can take a step, but for wake-ups that come for no reason, and somebody hasn't ended;
    - all who can take one may take any time for it, the device didn't fail, and an event isn't
      durable;
    - all have ended, the device didn't fail, and an event isn't durable.
    """
    worker = code_of(bodies, ("workers.rt", "work"))
    others = [code_of(bodies, ("nights.rt", it)) for it in ("save_at", "run_night")]
    codes = [worker] * crew.workers + others
    ends = [len(it) for it in codes]
    night = Night(crew, ends)
    for me, code in enumerate(codes):
        take_step(night, me, code, has_begun=True)
    first = night.state()
    found, waiting = {first}, deque([(first, 0)])
    while waiting:
        state, steps = waiting.popleft()
        moves = slow = 0
        for me, code in enumerate(codes):
            night.restore(state)
            if night.at[me] == ends[me]:
                continue
            is_slow = code[night.at[me]] in SLOW
            pick = picks = 0
            while pick <= picks:
                night.restore(state)
                night.pick = pick
                if not take_step(night, me, code):
                    break
                if not night.is_idle:
                    moves += 1
                    slow += is_slow
                pick, picks = pick + 1, night.picks - 1
                after = night.state()
                if after not in found:
                    found.add(after)
                    waiting.append((after, steps + 1))
        night.restore(state)
        is_stored = night.durable == night.events or night.broken
        if not moves and night.at != ends:
            return Found(HANGS, steps, len(found))
        if not moves and not is_stored:
            return Found(LEAVES, steps, len(found))
        if moves == slow and not is_stored:
            return Found(LOSES, steps, len(found))
        if len(found) > most:
            return Found(f"more than {most} states", steps, len(found))
    return Found("", 0, len(found))
