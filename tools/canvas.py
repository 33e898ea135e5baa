"""The elements of a picture: an SVG."""
from __future__ import annotations

import colorsys
import html
import math

CHARACTER = 6.1  # the width of a character of the labels, whose letters are all equally wide
LINE = 12  # from a line of a label to the next
WIDEST = 34  # characters in a line beside the graph, where a word allows
LONGEST = 60  # and in a line behind a row
GREY, RED, BLACK = "#777777", "#c00000", "#222222"
COLOURS = ["#1f5fa8", "#b8480a", "#15803d", "#8b2fc9", "#b0145c", "#0f7a80", "#7a5200", "#4c55d6"]
STYLE = """text { font: 10px "DejaVu Sans Mono", Menlo, Consolas, "Liberation Mono", monospace }
.bold { font-weight: bold }
.small { font-size: 8px }"""
BOLD = ' class="bold"'
Word = tuple[str, str, bool]  # its text, its colour, and whether it is bold


def shown(value: float) -> str:
    """A coordinate, as short as it is exact enough."""
    return f"{value:.2f}".rstrip("0").rstrip(".")


def colour_of(place: int) -> str:
    """A colour for the transaction at this place: chosen ones first, then ever other hues."""
    if place < len(COLOURS):
        return COLOURS[place]
    red, green, blue = colorsys.hls_to_rgb((0.07 + place * 0.381966) % 1, 0.24 + 0.06 * (place % 3), 0.7)
    return "#" + "".join(f"{round(255 * part):02x}" for part in (red, green, blue))


def characters(line: list[Word]) -> int:
    return sum(len(word[0]) + 1 for word in line) - 1


class Canvas:
    """The elements of a picture, in the order in which they are painted."""

    def __init__(self) -> None:
        self.elements: list[str] = []

    def add(self, name: str, content: str = "", **attributes: float | str) -> None:
        words = [f'{key.strip("_").replace("_", "-")}="{shown(value) if isinstance(value, (int, float)) else html.escape(value)}"'
                 for key, value in attributes.items()]
        self.elements.append(f"<{name} {' '.join(words)}" + (f">{content}</{name}>" if content else "/>"))

    def path(self, points: str, colour: str, **more: float | str) -> None:
        self.add("path", d=points, fill="none", stroke=colour, **more)

    def segment(self, x: float, y: float, to_x: float, to_y: float, colour: str, **more: float | str) -> None:
        self.path(f"M{shown(x)} {shown(y)}L{shown(to_x)} {shown(to_y)}", colour, **more)

    def text(self, x: float, y: float, words: list[Word], anchor: str = "start", look: str = "label") -> None:
        """Words beside one another."""
        parts = [f'<tspan fill="{colour}"{BOLD if bold else ""}>{html.escape(text)}</tspan>' for text, colour, bold in words]
        self.add("text", " ".join(parts), x=x, y=y, text_anchor=anchor, class_=look)

    def head(self, x: float, y: float, along_x: float, along_y: float, colour: str) -> None:
        """An arrow's head that ends at a point, along a direction."""
        length = math.sqrt(along_x * along_x + along_y * along_y) or 1.0
        a, b = 7 * along_x / length, 7 * along_y / length
        corners = [(x, y), (x - a - 0.4 * b, y - b + 0.4 * a), (x - a + 0.4 * b, y - b - 0.4 * a)]
        self.add("polygon", points=" ".join(f"{shown(cx)},{shown(cy)}" for cx, cy in corners), fill=colour)

    def arrow(self, x: float, y: float, to_x: float, to_y: float, gap: float, colour: str, **more: float | str) -> None:
        """An arrow that ends so far before a point, so that its head is seen."""
        length = math.sqrt((to_x - x) ** 2 + (to_y - y) ** 2) or 1.0
        end_x, end_y = to_x - gap * (to_x - x) / length, to_y - gap * (to_y - y) / length
        self.segment(x, y, end_x, end_y, colour, **more)
        self.head(end_x, end_y, to_x - x, to_y - y, colour)


def wrapped(words: list[Word], widest: int = WIDEST) -> list[list[Word]]:
    """Lines of words, of at most so many characters where no word is longer."""
    lines: list[list[Word]] = [[]]
    for word in words:
        if lines[-1] and characters(lines[-1]) + 1 + len(word[0]) > widest:
            lines.append([])
        lines[-1].append(word)
    return lines


def write(canvas: Canvas, x: float, y: float, side: int, lines: list[list[Word]]) -> None:
    for number, line in enumerate(lines):
        canvas.text(x, y + 3.5 + LINE * number, line, "start" if side == 1 else "end")
