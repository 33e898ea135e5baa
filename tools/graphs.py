"""What pictures ask of graphs: components, and room for arrows beside one another."""
from __future__ import annotations


def walk(start: str, after: dict[str, list[str]], seen: set[str]) -> list[str]:
    """What is reached from here and was not seen before, each behind what it leads to."""
    done, path = [], [(start, iter(after[start]))]
    seen.add(start)
    while path:
        ahead = next((name for name in path[-1][1] if name not in seen), None)
        if ahead is None:
            done.append(path.pop()[0])
        else:
            seen.add(ahead)
            path.append((ahead, iter(after[ahead])))
    return done


def components(names: list[str], edges: dict[tuple[str, str], str]) -> list[list[str]]:
    """The components of these transactions, each in the order of the names, and the components by their first members."""
    after: dict[str, list[str]] = {name: [] for name in names}
    before: dict[str, list[str]] = {name: [] for name in names}
    for first, second in edges:
        after[first].append(second)
        before[second].append(first)
    seen: set[str] = set()
    done = [name for start in names if start not in seen for name in walk(start, after, seen)]
    seen, place = set(), {name: at for at, name in enumerate(names)}
    found = [sorted(walk(name, before, seen), key=place.__getitem__) for name in reversed(done) if name not in seen]
    return sorted(found, key=lambda members: place[members[0]])


def levels(spans: list[tuple[int, int]]) -> list[int]:
    """A level for each of these spans of places, so that two that overlap never share one: shorter ones get lower levels."""
    taken: list[list[tuple[int, int]]] = []
    found = [0] * len(spans)
    for at in sorted(range(len(spans)), key=lambda at: (spans[at][1] - spans[at][0], spans[at])):
        low, high = spans[at]
        level = next((n for n, others in enumerate(taken) if all(high <= a or b <= low for a, b in others)), len(taken))
        taken += [[]] if level == len(taken) else []
        taken[level].append((low, high))
        found[at] = level
    return found
