"""The gate: every proof, test and program, every mutant of must-fail/, the mutants whose text
changed, and then the scripts of tests/.

    .ci/run

It runs `.ci/mutants --beside rt ci`, and passes on what that prints, as it comes. Then comes a line
for each crate, with the processor seconds of its proof, its mutants and its tests, and one for the
time of the whole. rt ci lets a mutant pass that doesn't reach the prover, and so shows nothing:
here it has failed. One that is refused only because a written answer names something that is gone
shows little of a contract: these are counted.

Then tests/all runs over the program that is there, also if something failed. The last line is
`N passed, M failed`, in which the scripts count as one, and the status is 0 only if none failed.
docs/gate.md has what it takes, and what RT_JOBS is.
"""
import argparse
import os
import re
import resource
import signal
import subprocess
import sys
import time
from dataclasses import dataclass

sys.dont_write_bytecode = True
TOP = os.path.dirname(os.path.dirname(os.path.realpath(__file__)))
sys.path.insert(0, f"{TOP}/.ci")
import machine  # noqa: E402
from crates import Crate, crates_of  # noqa: E402
from meter import Meter, Of  # noqa: E402
from passing import Count, Passed, passed_on, write_every_sign  # noqa: E402

PROGRAM = "crates/night/out/night"
BAD = re.compile(r"^rt: must-fail \S+: BAD EDIT", re.M)


@dataclass(frozen=True)
class Report:
    """What `rt ci` printed about the crates, and the seconds that each took."""

    text: str
    meter: Meter

    def find(self, pattern: str) -> re.Match[str] | None:
        return re.search(pattern, self.text, re.M | re.S)

    def spent(self, crate: Crate, of: Of) -> str:
        return f" in {self.meter.seconds(crate.name, of):.0f} s"

    def line(self, crate: Crate) -> str:
        return f"{crate.name}: {self.proof(crate)}; {self.mutants(crate)}; {self.tests(crate)}"

    def proof(self, crate: Crate) -> str:
        if self.find(rf"^rt: {crate.name} is kept: "):
            return "kept"
        if not self.find(rf"^rt: {crate.name} proved$"):
            return "NOT PROVED"
        found = self.find(rf"^== {crate.name}\n.*?^logic=proved(?: functions=(\d+))?")
        number = found and found[1] or 0
        return f"proved, {number} functions{self.spent(crate, Of.PROOF)}"

    def mutants(self, crate: Crate) -> str:
        """Counts the mutants of must-fail/, and those that .ci/mutants put there."""
        tried = re.findall(rf"^rt: must-fail {crate.name}/(mutant-)?\S+: (.*)", self.text, re.M)
        changed = sum(bool(was_put) for was_put, _ in tried)
        total = len(crate.edits()) + changed
        if not total:
            return "no mutants"
        refused = [how for _, how in tried if how.startswith("refused,")]
        alone = sum("(only because a proof file " in how for how in refused)
        text = f"{len(refused)} of {total} mutants refused"
        text += f", {alone} by a written answer alone" if alone else ""
        text += f", {changed} of them changed" if changed else ""
        found = self.find(rf"^rt: {crate.name}: (\d+) of its \d+ must-fail edits were tried by an"
                          " earlier run ")
        kept = int(found[1]) if found else 0
        if kept == total:
            return f"{text}, all kept"
        text += f", {kept} kept," if kept else ""
        return f"{text}{self.spent(crate, Of.MUTANTS)}"

    def tests(self, crate: Crate) -> str:
        """How a crate's tests ended. `rt` prints no line for a kept proof of tests, and runs no
        tests without a proof."""
        if not crate.has_tests():
            return "no tests"
        ran = self.find(rf"^rt: {crate.name}: its tests (passed|FAILED)$")
        passed = ran and ran[1] == "passed"
        if self.find(rf"^rt: {crate.name}: its tests are proved$"):
            found = self.find(rf"^== {crate.name}: its tests\n.*?^logic=proved tests=(\d+)")
            how = "passed" if passed else "proved, NOT PASSED"
            return f"{found[1] if found else '?'} tests {how}{self.spent(crate, Of.TESTS)}"
        if ran:
            return f"its tests kept, {'and passed' if passed else 'NOT PASSED'}"
        return "its tests NOT PROVED"


def prove() -> Passed:
    """Has rt prove and try everything, and prints a line for each crate, and one for the time."""
    began, meter = time.monotonic(), Meter()
    meter.start()
    ran = passed_on([".ci/mutants", "--beside", "rt", "ci"])
    meter.stop()
    report = Report(ran.text, meter)
    for crate in crates_of(TOP):
        print(report.line(crate))
    used = sum(resource.getrusage(resource.RUSAGE_CHILDREN)[:2])
    clock = time.monotonic() - began
    print(f"{used / 60:.0f} processor minutes, {clock / 60:.0f} by the clock", flush=True)
    return ran


def counted(ran: Passed, are_scripts_well: bool) -> Count:
    """Returns the last line: what failed without being counted is one that failed."""
    last = ran.last or Count(0, 1)
    last = last.with_failed(len(BAD.findall(ran.text)))
    last = Count(last.passed + are_scripts_well, last.failed + (not are_scripts_well))
    return last if last.failed or not ran.status else last.with_failed(1)


def end(*_: object) -> None:
    sys.exit(1)


def main() -> int:
    argparse.ArgumentParser(prog=".ci/run", description=__doc__, allow_abbrev=False,
                            formatter_class=argparse.RawDescriptionHelpFormatter).parse_args()
    write_every_sign()
    signal.signal(signal.SIGTERM, end)  # (which ends rt ci, too)
    os.chdir(TOP)
    # (without RT_JOBS `rt ci` plans with the memory that a check of that many lines may take,
    # and none of ours does)
    os.environ["RT_JOBS"] = os.environ.get("RT_JOBS") or str(machine.checks_at_once())
    print(f"run: {os.environ['RT_JOBS']} checks side by side (RT_JOBS)", flush=True)
    ran = prove()
    scripts = subprocess.run(["tests/all", PROGRAM], check=False).returncode
    last = counted(ran, scripts == 0)
    print(last)
    return 1 if last.failed else 0


if __name__ == "__main__":
    sys.exit(main())
