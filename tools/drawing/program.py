"""Runs the program over a trace, and over the trace with looks (`show` and `pending`) put in after its steps."""
import json
import os
import subprocess

# the program reads at most so many bytes and lines
BYTES = 16 << 20
LINES = 65_536
# so many steps are drawn at most
STEPS = 5_000
# where steps times lanes are more, a step is followed by looks at its own client alone, and only where it can move what that
# client shows or has pending: no step moves what another client shows
LOOKS = 4_000
# so many looks at most are in one run, so that its answers fit into memory
PART = 5_000
SECONDS = 600

# what changes nothing, and is never put into a run with looks
IDLE = ("show", "pending")
# what changes nothing that is shown or pending
STILL = (*IDLE, "sequence", "ack", "drop", "leave", "need")


class Stop(Exception):
    """What ends the drawing, in one line."""


def lines_of(data):
    lines = data.split(b"\n")
    return lines if lines[-1] else lines[:-1]


def text_of(lines):
    # (an empty last line is one only with its line feed)
    return b"\n".join(lines) + (b"" if lines and lines[-1] else b"\n")


def run(program, data):
    """Returns the lines that the program answers to a trace, and its status."""
    path = os.path.abspath(program) if os.path.exists(program) else program
    try:
        ran = subprocess.run([path, "trace"], input=data, stdout=subprocess.PIPE, stderr=subprocess.PIPE, timeout=SECONDS)
    except OSError as error:
        raise Stop(f"{program} cannot be run: {error.strerror or error}")
    except ValueError as error:
        raise Stop(f"{program} cannot be run: {error}")
    except subprocess.TimeoutExpired:
        raise Stop(f"{program} had not ended after {SECONDS} seconds")
    return lines_of(ran.stdout), ran.returncode


def parsed(program, line):
    try:
        value = json.loads(line.decode())
        if isinstance(value, dict):
            return value
    except ValueError:
        pass
    raise Stop(f"{program} does not answer as `sharedtree trace` does: {line[:60].decode(errors='replace')!r}")


class Trace:
    """The lines of a trace that can be drawn, each with its answer. Line 0 is the header, and line i the i-th step."""

    def __init__(self, program, data):
        self.program, self.ended = program, None
        lines = lines_of(data)
        if len(lines) > STEPS + 1:
            self.ended = {"cause": "Many", "line": STEPS + 2, "steps": len(lines) - 1}
            lines = lines[: STEPS + 1]
            data = text_of(lines)
        said, status = run(program, data)
        last = parsed(program, said[-1]) if said else {}
        if last.get("too") == "long":
            self.end("Long", last["line"], lines)
            lines = lines[: last["line"] - 1]
            said, status = run(program, text_of(lines))
            last = parsed(program, said[-1]) if said else {}
        if "bad" in last:
            self.end(last["bad"], last["line"], lines)
            lines, said = lines[: last["line"] - 1], said[:-1]
        if "usage" in last or len(said) != len(lines):
            raise Stop(f"{program} answered {len(said)} of {len(lines)} lines, and ended with status {status}")
        self.lines, self.said = lines, said
        self.answers = [parsed(program, it) for it in said]
        self.steps = [json.loads(it.decode()) for it in lines]

    def end(self, cause, line, lines):
        if line == 1:
            why = "has more than 1 MiB" if cause == "Long" else "is no header of a trace" if cause == "Header" else "is no JSON"
            raise Stop(f"line 1 {why}, so there is nothing to draw")
        text = lines[line - 1] if line <= len(lines) else b""
        self.ended = {"cause": cause, "line": line, "text": text[:200_000].decode(errors="replace") + ("\u2026" if len(text) > 200_000 else "")}

    def cut(self, steps):
        """Leaves out what comes after so many steps."""
        self.ended = {"cause": "Room", "line": steps + 2, "steps": len(self.lines) - 1}
        for it in (self.lines, self.said, self.answers, self.steps):
            del it[steps + 1 :]

    def moves(self, i):
        return i == 0 or "no" not in self.answers[i] and self.steps[i]["do"] not in IDLE

    def look(self, present, see, of_all=None):
        """Calls see(i, client, branch, answer's bytes) for what each client shows on each branch after the step i, and with
        the branch None for what is pending. present(i) lists the clients' names with the numbers of their branches.

        Where one run has no room for all, there are several, each with the steps before and looks at a part of them."""
        count = len(self.lines)
        if of_all is None:
            of_all = count * max(sum(len(branches) for _, branches in present(i)) for i in range(count)) <= LOOKS
        given, wanted, size, looks = [], [], 0, 0

        def play():
            said, status = run(self.program, text_of(given))
            if len(said) != len(given):
                raise Stop(f"{self.program} answered {len(said)} of {len(given)} lines with looks put in, and ended with status {status}")
            for at, line in zip(wanted, said):
                if at:
                    see(*at, line)

        i = 0
        while i < count:
            own = [self.lines[i]] if self.moves(i) else []
            puts = [
                (text, (i, name, branch))
                for name, branches in present(i)
                if of_all or self.steps[i].get("client") == name and "no" not in self.answers[i] and self.steps[i]["do"] not in STILL
                for branch in [*branches, None]
                for text in [look_line(name, branch)]
            ]
            more = sum(len(it) + 1 for it in own) + sum(len(text) + 1 for text, _ in puts)
            is_full = size + more > BYTES or len(given) + 1 + len(puts) > LINES or looks and looks + len(puts) > PART
            if not is_full:
                given += own + [text for text, _ in puts]
                wanted += [None] * len(own) + [at for _, at in puts]
                size, looks, i = size + more, looks + len(puts), i + 1
                continue
            if not looks:
                self.cut(i - 1)
                break
            play()
            given = [self.lines[k] for k in range(i) if self.moves(k)]
            wanted, size, looks = [None] * len(given), sum(len(it) + 1 for it in given), 0
        if looks:
            play()


def look_line(name, branch):
    step = {"do": "pending", "client": name} if branch is None else {"do": "show", "client": name, "branch": branch}
    return json.dumps(step, ensure_ascii=False, separators=(",", ":")).encode()
