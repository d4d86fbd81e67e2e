"""What the pictures of the documents are made of, and how they are kept up to date. Standard library alone."""
import sys
from pathlib import Path

HERE = Path(__file__).resolve().parent
# A picture has a paper of its own, so that it can be read on a white page and on a dark one.
PAPER, INK, FAINT, RED = "#fcfbf7", "#24211b", "#8d8778", "#b3201a"
PLAIN, FIXED = "Verdana, DejaVu Sans, Helvetica, Arial, sans-serif", "DejaVu Sans Mono, Menlo, Consolas, monospace"


def safe(words):
    return words.replace("&", "&amp;").replace("<", "&lt;")


class Picture:
    def __init__(self, title, width, height):
        self.title, self.lines, self.width, self.height = title, [], width, height
        self.box(0.5, 0.5, width - 1, height - 1, PAPER, "#c9c4b6", 10)
        self.text(24, 34, title, size=19, weight="bold")

    def box(self, x, y, width, height, fill, stroke="none", round_=0, line=1, dashes=""):
        dashed = f' stroke-dasharray="{dashes}"' if dashes else ""
        self.lines.append(
            f'<rect x="{x:.1f}" y="{y:.1f}" width="{width:.1f}" height="{height:.1f}" rx="{round_}" fill="{fill}" stroke="{stroke}" '
            f'stroke-width="{line}"{dashed}/>'
        )

    def line(self, x1, y1, x2, y2, stroke=INK, line=1.0, dashes=""):
        dashed = f' stroke-dasharray="{dashes}"' if dashes else ""
        ends = f'x1="{x1:.1f}" y1="{y1:.1f}" x2="{x2:.1f}" y2="{y2:.1f}"'
        self.lines.append(f'<line {ends} stroke="{stroke}" stroke-width="{line}"{dashed}/>')

    def arrow(self, *places, stroke=INK, line=1.4, dashes=""):
        """A line through these places, with a point at the last."""
        (x1, y1), (x2, y2) = places[-2:]
        length = ((x2 - x1) ** 2 + (y2 - y1) ** 2) ** 0.5
        along_x, along_y = (x2 - x1) / length, (y2 - y1) / length
        back_x, back_y = x2 - 9 * along_x, y2 - 9 * along_y
        dashed = f' stroke-dasharray="{dashes}"' if dashes else ""
        way = " ".join(f"{x:.1f},{y:.1f}" for x, y in [*places[:-1], (back_x, back_y)])
        self.lines.append(f'<polyline points="{way}" fill="none" stroke="{stroke}" stroke-width="{line}"{dashed}/>')
        sides = [(x2, y2), (back_x - 4 * along_y, back_y + 4 * along_x), (back_x + 4 * along_y, back_y - 4 * along_x)]
        self.lines.append(f'<polygon points="{" ".join(f"{x:.1f},{y:.1f}" for x, y in sides)}" fill="{stroke}"/>')

    def dot(self, x, y, radius, fill, stroke="none", line=1.0):
        self.lines.append(f'<circle cx="{x:.1f}" cy="{y:.1f}" r="{radius}" fill="{fill}" stroke="{stroke}" stroke-width="{line}"/>')

    def text(self, x, y, words, size=13, fill=INK, anchor="start", weight="normal", fixed=False):
        family = f' font-family="{FIXED}"' if fixed else ""
        form = f'font-size="{size}" fill="{fill}" text-anchor="{anchor}" font-weight="{weight}"{family}'
        self.lines.append(f'<text x="{x:.1f}" y="{y:.1f}" {form}>{safe(words)}</text>')

    def whole(self):
        head = (
            f'<svg xmlns="http://www.w3.org/2000/svg" width="{self.width}" height="{self.height}" '
            f'viewBox="0 0 {self.width} {self.height}" font-family="{PLAIN}">'
        )
        return "\n".join([head, f"<title>{safe(self.title)}</title>", *self.lines, "</svg>", ""])


def keep(pictures, check, script):
    """Writes the pictures, or ends with status 1 where a file is not as its picture is."""
    stale = [name for name, picture in pictures.items() if not (HERE / name).exists() or (HERE / name).read_text() != picture.whole()]
    for name, picture in pictures.items():
        if not check:
            (HERE / name).write_text(picture.whole())
    if check and stale:
        sys.exit(f"not up to date: {', '.join(stale)}. Run {script}")
    print("the pictures are up to date")
