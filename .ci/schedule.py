"""How long steps may take that wait for one another, done so many at a time."""
from collections.abc import Mapping, Set


def chains(waits: Mapping[str, Set[str]], seconds: Mapping[str, float]) -> dict[str, float]:
    """Returns, of each step, how long the longest chain takes that begins with it. A step waits for
    those that are named with it; those that no one knows are done."""
    above: dict[str, list[str]] = {name: [] for name in waits}
    for name, below in waits.items():
        for it in below & waits.keys():
            above[it].append(name)
    found: dict[str, float] = {}

    def chain(name: str) -> float:
        if name not in found:
            found[name] = seconds[name] + max(map(chain, above[name]), default=0.0)
        return found[name]

    return {name: chain(name) for name in waits}


def chain_of(waits: Mapping[str, Set[str]], seconds: Mapping[str, float]) -> list[str]:
    """Returns the longest chain, its first step first."""
    long = chains(waits, seconds)
    chain: list[str] = []
    ready = [name for name in waits if not waits[name] & waits.keys()]
    while ready:
        chain.append(max(ready, key=lambda it: long[it]))
        ready = [name for name in waits if chain[-1] in waits[name]]
    return chain


def length(waits: Mapping[str, Set[str]], seconds: Mapping[str, float], lanes: int) -> float:
    """Returns how long the steps take, so many at a time, those of the longest chain first."""
    long, ends, now = chains(waits, seconds), dict[str, float](), 0.0
    left = set(waits)
    while left or ends:
        ready = [it for it in left if not waits[it] & (left | ends.keys())]
        for it in sorted(ready, key=lambda it: (-long[it], it))[:lanes - len(ends)]:
            ends[it] = now + seconds[it]
            left.remove(it)
        now = min(ends.values())
        ends = {it: end for it, end in ends.items() if end > now}
    return now
