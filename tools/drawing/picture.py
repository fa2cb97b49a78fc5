"""Writes the whole trace as one still picture: time goes down, with a column for each lane, and what happens beside it in words."""
import difflib
import html
import math
import re

from .nodes import TITLES, short

HOW = "A number in a frame is an entry of the log; an arrow leads to it from where it was made, and from it to who receives it."
WORDS = 500
SIDE, TOP = 46, 118
STYLE = """
svg { --paper: #fff; --ink: #1c1d20; --muted: #595d66; --rule: #dedad0; --on: #fff; --bad: #a32020;
  --c0: #0b5fa5; --c1: #bf4a06; --c2: #00735a; --c3: #93397c; --c4: #7a6000; --c5: #3a4cc0; --c6: #47505c; --c7: #a8324a; }
@media (prefers-color-scheme: dark) {
  svg { --paper: #14161a; --ink: #ecedf0; --muted: #a9aeb8; --rule: #3a4048; --on: #101214; --bad: #ff9b93;
    --c0: #74baff; --c1: #ff9d63; --c2: #47d3a9; --c3: #e9a0d6; --c4: #e3c552; --c5: #a9b4ff; --c6: #c2c9d3; --c7: #ff93a4; }
}
text { font: 16px/1 system-ui, -apple-system, "Segoe UI", Roboto, Helvetica, Arial, sans-serif; fill: var(--ink); }
.paper { fill: var(--paper); }
.small { font-size: 15px; fill: var(--muted); }
.small .new { font-weight: 700; fill: var(--ink); }
.small .gone { text-decoration: line-through; }
.why { font-size: 15px; fill: var(--bad); }
.name { font-weight: 600; }
.mid { text-anchor: middle; dominant-baseline: central; font-size: 15px; }
.on { fill: var(--on); font-weight: 700; font-size: 16px; }
.num { text-anchor: end; font-size: 14px; fill: var(--muted); }
.lane { stroke: var(--rule); stroke-width: 3; }
.log { stroke: var(--muted); stroke-width: 2; }
.away { stroke-dasharray: 2 7; }
.arrow { stroke-width: 1.75; opacity: .75; }
.cut { stroke-dasharray: 6 4; }
.pill { fill: var(--paper); stroke-width: 2; }
.void { stroke-dasharray: 4 3; }
.halo { stroke: var(--paper); stroke-width: 6.5; }
.strike { stroke: var(--bad); stroke-width: 2.5; }
.no { fill: var(--paper); stroke: var(--bad); stroke-width: 2; stroke-dasharray: 3 2; }
.bang { fill: var(--bad); font-weight: 700; }
.look { fill: var(--paper); stroke: var(--muted); stroke-width: 2; }
"""
GLYPHS = {"insert": "+", "remove": "\u2212", "move": "\u2192", "set": "=", "clear": "\u2212", "begin": "("}
GLYPHS |= {"commit": ")", "abort": "(", "need": "?", "undo": "\u21ba", "upgrade": "\u2191"}
GLYPHS |= {"join": "", "leave": "", "drop": "", "reconnect": "", "ack": "a", "fork": "Y", "rebase": "R", "merge": "M", "drop_branch": "\u2212"}


def esc(text):
    # (some letters have no place in XML)
    return html.escape(re.sub("[\u0000-\u001f\ud800-\udfff\ufffe\uffff]", "\ufffd", text))


def wrapped(text, width):
    """Returns the lines of a text of about so many letters each."""
    lines, line = [], ""
    for word in text.split(" "):
        while len(word) > width:
            word, rest = word[:width], word[width:]
            lines += [line, word] if line else [word]
            line, word = "", rest
        if line and len(line) + 1 + len(word) > width:
            lines.append(line)
            line = word
        else:
            line = f"{line} {word}" if line else word
    return [*lines, line] if line else lines


def shape(look, r, given):
    kind = look % 5
    if kind == 0:
        return f'<circle r="{r}" {given}/>'
    if kind == 1:
        points = [(k * r * 0.88, m * r * 0.88) for k, m in ((-1, -1), (1, -1), (1, 1), (-1, 1))]
    elif kind == 2:
        points = [(k * r * 1.2, m * r * 1.2) for k, m in ((0, -1), (1, 0), (0, 1), (-1, 0))]
    elif kind == 3:
        points = [(math.cos(k * math.pi / 3) * r * 1.12, math.sin(k * math.pi / 3) * r * 1.12) for k in range(6)]
    else:
        points = [(math.sin(k * math.pi * 0.4) * r * 1.18, -math.cos(k * math.pi * 0.4) * r * 1.18) for k in range(5)]
    return f'<polygon points="{" ".join(f"{a:.1f},{b:.1f}" for a, b in points)}" {given}/>'


class Picture:
    def __init__(self, data, title):
        self.data, self.title = data, title
        self.columns, x = [], SIDE
        for row in data["rows"]:
            wide = 88 if row.get("log") else 62 if row["branch"] else 100
            self.columns.append(x + wide // 2)
            x += wide
        self.log = self.columns[next(k for k, it in enumerate(data["rows"]) if it.get("log"))]
        self.words_at = x + 14
        self.width = self.words_at + WORDS + 16
        self.texts, self.ys, y, told = [], [], TOP, set()
        for i, step in enumerate(data["steps"]):
            lines = [("", it) for it in wrapped(step["says"], 58)]
            if "why" in step:
                brief, whole = data["reasons"][step["why"]]
                words = f"Void: {brief}" if step["why"] in told and not step.get("refused") else whole
                told.add(step["why"])
                lines += [("why", it) for it in wrapped(words, 60)]
            lines += self.tree_lines(i, step)
            self.ys.append(y + 15)
            self.texts.append((y + 20, lines))
            y += max(38, 22 * len(lines) + 12)
        self.height = y + 18

    def client(self, lane):
        return self.data["clients"][self.data["lanes"][lane]["client"]]

    def look(self, lane):
        return self.client(lane)["look"]

    def x(self, lane):
        return self.log if lane in (-1, None) else self.columns[self.data["lanes"][lane]["row"]]

    def value(self, number):
        """Returns a tree as a short text in pieces: leaves, and what stands between them."""
        it = self.data["trees"][number]
        if isinstance(it, str):
            return [short(it) if it else "\u201c\u201d"]
        if "v" in it:
            return [it["v"]]
        if "r" in it:
            inner = [self.value(k) for k in it["r"]]
            apart = " | " if any(self.titled(k) and self.has_rows(k) for k in it["r"]) else ", "
            made = []
            for k, items in zip(it["r"], inner):
                is_plain = self.is_leaf(k) or self.titled(k)
                made += [apart] if made else []
                made += items if is_plain else [f"{short(self.data['trees'][k]['t'])}(", *items, ")"]
            return made or ["nothing"]
        fields = dict(it["f"])
        title = next((key for key in TITLES if key in fields and isinstance(self.data["trees"][fields[key]], str)), None)
        made = self.value(fields.pop(title)) if title else []
        plain = [key for key in fields if self.is_leaf(fields[key])]
        for k, key in enumerate(plain):
            made += ([" ("] if title and not k else [", "] if k else []) + ([] if title else [f"{short(key)}: "]) + self.value(fields[key])
        made += [")"] if title and plain else []
        for key in fields:
            if key not in plain:
                is_only = title and len(fields) == len(plain) + 1
                made += [": "] if is_only else ["; " if made else "", f"{short(key)}: "]
                made += self.value(fields[key])
        return made or ["nothing"]

    def is_leaf(self, number):
        it = self.data["trees"][number]
        return isinstance(it, str) or "v" in it

    def titled(self, number):
        it = self.data["trees"][number]
        return isinstance(it, dict) and any(key in TITLES for key, _ in it.get("f", []))

    def has_rows(self, number):
        return any(not self.is_leaf(it) for _, it in self.data["trees"][number]["f"])

    def tree_lines(self, i, step):
        """Returns, for a step after which a lane shows another tree, the tree in lines of pieces, where what is new is marked."""
        if i == 0:
            now, old, who = self.data["opening"], None, ""
        else:
            now = None
            for lane in self.data["lanes"]:
                at = next((k for k, it in enumerate(lane["shows"]) if it[0] == i), None)
                if at is not None and (at or step["do"] == "fork"):
                    now, old = lane["shows"][at][1], lane["shows"][at - 1][1] if at else None
                    who = short(self.data["clients"][lane["client"]]["name"], 14) + (f", branch {lane['branch']}" if lane["branch"] else "")
            if step["do"] == "show" and not step.get("refused"):
                lanes = [it for it in self.data["lanes"] if it["client"] == self.data["lanes"][step["lane"]]["client"]]
                lane = self.data["lanes"][step["lane"]] if step["lane"] is not None else lanes[0]
                shown = [it[1] for it in lane["shows"] if it[0] <= i]
                now = old = shown[-1] if shown else None
                who = ""
        if now is None:
            return []
        pieces, had = self.value(now), self.value(old) if old is not None else []
        told = []
        for tag, a, b, start, end in difflib.SequenceMatcher(None, had, pieces, autojunk=False).get_opcodes():
            new = "new" if old is not None and tag != "equal" else ""
            # (what is gone is told in a plain row alone; where rows are in rows it would be in the way)
            flat = all(it == ", " or not it.endswith(("(", ")", ": ", "| ")) for it in [*had, *pieces])
            for it in had[a:b] if flat and tag in ("delete", "replace") else []:
                if it.strip(" ,"):
                    told += [(" " if told and not told[-1][0].endswith(" ") else "", ""), (it, "gone")]
            if told and told[-1][1] == "gone" and start < len(pieces) and pieces[start] != ", ":
                told.append((" ", ""))
            told += [(it, new if it.strip(" ,();:|") and not it.endswith("(") else "") for it in pieces[start:end]]
        lines, line, length = [], [(f"{who}: ", "")] if who else [], len(who) + 2
        for piece, of in told:
            if length + len(piece) > 62 and length:
                lines.append(line)
                line, length, piece = [], 0, piece.lstrip()
            line.append((piece, of))
            length += len(piece)
        lines.append(line)
        if len(lines) > 3:
            lines = [*lines[:2], [*lines[2][:-1], ("\u2026", "")]]
        return [("small", it) for it in lines]

    def pill(self, x, y, n):
        entry = self.data["entries"][n - 1]
        wide, look = 16 + 9 * len(str(n)), self.data["clients"][entry["client"]]["look"]
        is_void = entry["void"] is not None
        of, rx = "pill void" if is_void else "pill", 5 if entry["kind"] == "commit" else 12
        frame = f'<rect x="{-wide / 2:g}" y="-12" width="{wide}" height="24" rx="{rx}" class="{of}" stroke="var(--c{look % 8})"/>'
        made = f'<g transform="translate({x},{y})">{frame}<text class="mid">{n}</text>'
        return made + (self.strike(wide / 2 + 4, 7) if is_void else "") + "</g>"

    def strike(self, w, h):
        return f'<path class="strike" d="M{-w:g} {h}L{w:g} {-h}"/>'

    def mark(self, i, step):
        if i == 0 or step["do"] == "sequence" and not step.get("refused"):
            return ""
        x, y = self.x(step["lane"]), self.ys[i]
        if step.get("refused"):
            return f'<g transform="translate({x},{y})"><polygon points="0,-12 12,0 0,12 -12,0" class="no"/><text class="mid bang">!</text></g>'
        if step["do"] == "deliver":
            return self.pill(x, y, step["n"])
        if step["do"] in ("show", "pending"):
            return f'<circle cx="{x}" cy="{y}" r="6" class="look"/>'
        look = self.look(step["lane"])
        tone = f'class="pill void" stroke="var(--c{look % 8})"' if step["do"] in ("drop", "leave") else f'fill="var(--c{look % 8})"'
        glyph = GLYPHS.get(step["do"], "\u00b7")
        commit = self.data["commits"].get(step.get("rev"))
        entry = self.data["entries"][commit["entry"] - 1] if commit and commit["entry"] and commit["step"] == i else None
        lost = step["do"] == "abort" or entry and entry["void"] is not None
        over = f'<path class="halo" d="M-15 9L15 -9"/>{self.strike(15, 9)}' if lost else ""
        sign = f'<text class="mid on">{glyph}</text>' if glyph else ""
        return f'<g transform="translate({x},{y})">{shape(look, 12, tone)}{sign}{over}</g>'

    def arrow(self, kind, start, lane, end, to, n):
        x1, y1, x2, y2 = self.x(lane), self.ys[start], self.x(to), self.ys[end]
        long = math.hypot(x2 - x1, y2 - y1) or 1
        ux, uy = (x2 - x1) / long, (y2 - y1) / long
        entry = self.data["entries"][n - 1] if n else None
        look = self.data["clients"][entry["client"]]["look"] if entry else self.look(to if lane == -1 else lane)
        near = 15 if to != -1 or kind == "get" else 16
        ex, ey = x2 - ux * near, y2 - uy * near
        tip = [(ex + ux * 5, ey + uy * 5), (ex - ux * 6 - uy * 5, ey - uy * 6 + ux * 5), (ex - ux * 6 + uy * 5, ey - uy * 6 - ux * 5)]
        cut = " cut" if entry and entry["void"] is not None and kind == "get" else ""
        way = f"M{x1 + ux * 13:.1f} {y1 + uy * 13:.1f}L{ex - ux * 4:.1f} {ey - uy * 4:.1f}"
        line = f'<path class="arrow{cut}" stroke="var(--c{look % 8})" d="{way}"/>'
        return f'{line}<polygon points="{" ".join(f"{a:.1f},{b:.1f}" for a, b in tip)}" fill="var(--c{look % 8})"/>'

    def lanes(self):
        bottom = self.ys[-1] + 14
        made = [f'<path class="log" d="M{self.log} {TOP - 8}V{bottom}"/>']
        for lane in self.data["lanes"]:
            x, start, end = self.columns[lane["row"]], lane["since"], lane["until"]
            begin, has = start, True
            parts = []
            for stand in lane["stands"] if lane["branch"] == 0 else []:
                if stand[5] != has:
                    parts.append((begin, stand[0], has))
                    begin, has = stand[0], stand[5]
            parts.append((begin, end, has))
            for first, last, is_on in parts:
                made.append(f'<path class="lane{"" if is_on else " away"}" d="M{x} {self.ys[first]}V{bottom if last is None else self.ys[last]}"/>')
        return made

    def heads(self):
        made = []
        for row, x in zip(self.data["rows"], self.columns):
            if row.get("log"):
                made.append(f'<text class="mid name" x="{x}" y="92">log</text>')
            elif row["branch"]:
                made.append(f'<text class="mid small" x="{x}" y="92">branch</text>')
            else:
                client = self.client(row["lanes"][0])
                made.append(f'<g transform="translate({x},70)">{shape(client["look"], 8, f"""fill="var(--c{client["look"] % 8})" """)}</g>')
                name, whole = esc(short(client["name"], 9)), esc(short(client["name"], 200))
                made.append(f'<text class="mid name" x="{x}" y="92">{name}<title>{whole}</title></text>')
        return made

    def draw(self):
        data = self.data
        count = len(data["clients"])
        what = f"{count} session{'' if count == 1 else 's'}, {len(data['steps']) - 1} steps. Time goes down. " + HOW
        size = f'width="{self.width}" height="{self.height}"'
        out = [
            f'<svg xmlns="http://www.w3.org/2000/svg" {size} viewBox="0 0 {self.width} {self.height}" role="img" aria-labelledby="t d">',
            f'<title id="t">The trace {esc(short(self.title, 80))}</title>',
            f'<desc id="d">{esc(" ".join(it["says"] for it in data["steps"][:200]))}</desc>',
            f"<style>{STYLE}</style>",
            f'<rect class="paper" {size} rx="14"/>',
            f'<text x="20" y="36" style="font-size:24px;font-weight:700">{esc(short(self.title, 60))}</text>',
        ]
        out += [f'<text class="small" x="{self.words_at}" y="{30 + 20 * k}">{esc(it)}</text>' for k, it in enumerate(wrapped(what, 64))]
        out += self.heads() + self.lanes()
        out += [self.arrow(*it) for it in data["arrows"]]
        out += [self.mark(i, it) for i, it in enumerate(data["steps"])]
        out += [self.pill(self.log, self.ys[it["step"]], it["n"]) for it in data["entries"]]
        for i, (y, lines) in enumerate(self.texts):
            out.append(f'<text class="num" x="{SIDE - 14}" y="{y}">{i + 1}</text>')
            for k, (of, line) in enumerate(lines):
                pieces = [(line, "")] if isinstance(line, str) else line
                words = "".join(f'<tspan class="{how}">{esc(it)}</tspan>' if how else esc(it) for it, how in pieces)
                out.append(f'<text{f""" class="{of}" """ if of else ""} x="{self.words_at}" y="{y + 22 * k}" xml:space="preserve">{words}</text>')
        if data["ended"]:
            out.append(f'<text class="why" x="20" y="{self.height - 8}">{esc(data["ended"]["why"])}</text>')
        return "\n".join(it for it in [*out, "</svg>"] if it) + "\n"


def picture(data, title):
    return Picture(data, title).draw()
