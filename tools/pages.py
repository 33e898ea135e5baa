"""What the checks of documents share: the blocks of a page."""
from __future__ import annotations

NO_FILE = "no file"


def blocks(lines: list[str]) -> list[tuple[int, str, list[str]]]:
    """The page's blocks, each with the number of its first line, the file that it names (nothing where it is indented), and its lines."""
    found: list[tuple[int, str, list[str]]] = []
    fence = None
    for number, line in enumerate(lines, 1):
        if line.startswith("```"):
            if fence is None:
                fence = (number, line[3:].strip() or NO_FILE, [])
            else:
                found.append(fence)
                fence = None
        elif fence is not None:
            fence[2].append(line)
        elif line.startswith("    "):
            if found and not found[-1][1] and found[-1][0] + len(found[-1][2]) == number:
                found[-1][2].append(line[4:])
            else:
                found.append((number, "", [line[4:]]))
    return found
