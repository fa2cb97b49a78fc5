"""Tells a trace: the data of the page and of the picture, with a sentence for each step."""
import json

from . import nodes
from .nodes import label, label_at, reach, row_of, said, several, short
from .program import Trace, parsed
from .world import EDITS, World

REFUSALS = {
    "NoClient": "no client of that name is there",
    "NoBranch": "there is no such branch",
    "Kind": "this can\u2019t be done there: the field is of another kind",
    "Range": "there are not so many items",
    "Inside": "it would go into itself",
    "NotBegun": "no transaction is open",
    "Unfinished": "a transaction is still open",
    "HasChildren": "another branch was forked from it, and stands on it",
    "NoCommit": "this client knows of no such commit",
    "NotOwn": "it is somebody else\u2019s commit",
    "VoidCommit": "the commit is void, so there is nothing to take back",
    "NotConnected": "the client has no connection",
    "Connected": "the client is connected already",
    "NothingToSend": "nothing waits to be sent",
    "NothingNew": "the client has received the whole log",
    "Taken": "a client of that name is there already",
}
ENDS = {
    "Json": "is no JSON",
    "Shape": "is no step",
    "Header": "is no header of a trace",
    "Long": "is too long: the program reads 65,536 lines of at most 1 MiB each, and 16 MiB of them",
    "Room": "leaves the program\u2019s input, which is at most 16 MiB, no room to look at its clients",
}


def refusal(do, answer):
    name = answer["no"]
    if do == "undo" and name == "Kind":
        return "the commit is an upgrade, which is never taken back"
    if name == "NoNode":
        return f"the path leads nowhere at its place {answer.get('depth')}"
    if name == "NotAllowed":
        return f"the schema doesn\u2019t allow that (node {answer.get('at')} of what is put there)"
    if name == "NotWider":
        return f"the schema is not wider than the one in effect (type {answer.get('at')} fails)"
    if name == "Gone":
        return f"it is too long ago: entries up to {answer.get('floor')} are settled"
    if name == "Limit":
        return f"the limit is reached: {answer.get('kept')} of {answer.get('of')}"
    return REFUSALS.get(name, name)


def edit_words(step, tree):
    """Says what an edit does, by the tree that its client showed before."""
    do, here = step["do"], reach(tree, step["at"])
    inner = nodes.kind_of(here)
    field = [it for name, it in inner[1].items() if name == step.get("key", "")] if inner and isinstance(inner[1], dict) else []
    key = f"\u201c{short(step.get('key', ''))}\u201d"

    def place(path, key, index):
        row, named = row_of(reach(tree, path)), label_at(tree, path)
        if key:
            return f"into \u201c{short(key)}\u201d of {named}"
        if index and index <= len(row):
            return f"after {label(row[index - 1])}" + (f" in {named}" if path else "")
        return f"at the front of {named}" if row else f"into {named}"

    if do == "insert":
        return f"puts {several([label(it) for it in step['items']])} {place(step['at'], '', step['index'])}"
    if do in ("remove", "move"):
        count, index = step.get("count", 1), step["index"]
        items = field if step.get("key") else row_of(here)[index : index + count]
        what = several([label(it) for it in items])
        if do == "remove":
            return f"takes {what} out"
        return f"moves {what} {place(step['to'], step.get('to_key', ''), step.get('to_index', 0))}"
    if do == "set":
        return f"sets {key} of {label_at(tree, step['at'])} to {label(step['item'])}"
    was = f", where {label(field[0])} was" if field else ""
    return f"empties {key} of {label_at(tree, step['at'])}{was}"


def joined(reasons):
    """Returns several reasons as one, or none."""
    return (reasons[0][0], " ".join(it[1] for it in reasons)) if reasons else None


class Told:
    def __init__(self, program, data, of_all=None):
        trace = Trace(program, data)
        world = World(trace.steps, trace.answers)
        self.table, self.index, self.bytes = [], {}, {}
        # of each lane the trees that it shows, from which step on, and what of the pending commits is void, with their changes
        self.shown, self.voids, self.last, self.changes = {}, {}, {}, {}
        self.places = nodes.Places(trace.steps[0]["tree"])
        opening = self.put(trace.steps[0]["tree"])
        trace.look(world.present.__getitem__, lambda *it: self.see(world, trace, *it), of_all)
        if len(trace.steps) < len(world.present):
            world = World(trace.steps, trace.answers)
        for rev, change in self.changes.items():
            if rev in world.commits:
                world.commits[rev].change = change
        self.trace, self.world, self.reasons, self.known = trace, world, [], {}
        self.data = self.tell(opening)

    def put(self, tree):
        """Returns the number of a tree in the table, in which equal trees stand once, over the numbers of what is in them."""
        inner = nodes.kind_of(tree)
        if not inner:
            entry = tree if isinstance(tree, str) else {"v": json.dumps(tree)}
        elif isinstance(inner[1], list):
            entry = {"t": inner[0], "r": [self.put(it) for it in inner[1]]}
        else:
            entry = {"t": inner[0], "f": [[key, self.put(it)] for key, it in inner[1].items()]}
        key = json.dumps(entry)
        if key not in self.index:
            self.index[key] = len(self.table)
            self.table.append(entry)
        return self.index[key]

    def tree(self, number):
        """Returns a tree of the table as it was."""
        entry = self.table[number]
        if isinstance(entry, str):
            return entry
        if "v" in entry:
            return json.loads(entry["v"])
        return {entry["t"]: [self.tree(it) for it in entry["r"]] if "r" in entry else {key: self.tree(it) for key, it in entry["f"]}}

    def see(self, world, trace, i, name, branch, line):
        """Takes what the program answered to a look. One that it refuses shows nothing, and is no error."""
        is_it = lambda it: it.client.name == name and it.branch == (branch or 0) and it.is_there(i)
        lane = next(it.lane for it in reversed(world.lanes) if is_it(it))
        if branch is None:
            if self.last.get(lane) != line:
                self.last[lane] = line
                self.learn(i, lane, parsed(trace.program, line))
            return
        if line not in self.bytes:
            answer = parsed(trace.program, line)
            self.bytes[line] = self.put(answer["tree"]) if "tree" in answer else None
        shown = self.shown.setdefault(lane, [])
        if not shown or shown[-1][1] != self.bytes[line]:
            shown.append((i, self.bytes[line]))

    def shows(self, lane, i):
        """Returns the number of the tree that a lane shows after the step i, or none."""
        found = None
        for step, number in self.shown.get(lane, []):
            if step > i:
                break
            found = number
        return found

    def learn(self, i, lane, answer):
        """Takes from what is pending each commit's change where it comes first, and which of the commits are void."""
        changes = {it["rev"]: it for it in answer.get("pending", [])}
        for rev, change in changes.items():
            if rev not in self.changes:
                self.changes[rev] = change
                self.places.learn(change)
        void = answer.get("void", [])
        self.voids.setdefault(lane, []).append((i, void, {rev: changes[rev] for rev in void if rev in changes}))

    def reason(self, pair):
        """Returns the number of a reason, which is told in short and in whole."""
        if pair not in self.known:
            self.known[pair] = len(self.reasons)
            self.reasons.append(list(pair))
        return self.known[pair]

    def before(self, upto, own=()):
        """Returns the changes in effect of the log's first entries and then of a client's own."""
        revs = [it["rev"] for it in self.world.entries[:upto] if it["kind"] == "commit" and not it["void"]]
        found = [self.world.commits[it].change for it in [*revs, *own] if it in self.world.commits]
        return [it for it in found if it]

    def last_upgrade(self, upto, own=(), but=None):
        revs = [it["rev"] for it in self.world.entries[:upto] if it["kind"] == "commit" and not it["void"]]
        ups = [it for it in [*revs, *own] if it != but and it in self.world.commits and self.world.commits[it].upgrades]
        return ups[-1] if ups else None

    def why(self, rev, void, upto, own=()):
        """Returns in words why a commit is void that comes after so many entries and these own ones."""
        if "schema" in void:
            return nodes.why_schema(self.world, rev, void["schema"], self.last_upgrade(upto, own, rev), upto)
        where = self.places.after(self.before(upto, own))
        if "need" in void:
            return nodes.why_needed(self.world, self.places, where, rev, void["need"], upto)
        if "cycle" in void:
            return nodes.why_cycle(self.world, self.places, where, rev, void["cycle"], upto)
        return "it has no effect there.", f"{nodes.whose(self.world, rev)} has no effect there."

    def cause(self, change, where):
        """Returns why a pending change is void, as a delivery would say it."""
        if not change.get("base", True):
            return {"schema": change.get("under")}
        for node in change.get("need", []):
            here, seen = node, set()
            while here in where and here not in seen and here != "0.0.0":
                seen.add(here)
                here = where[here][0]
            if here != "0.0.0":
                return {"need": node}
        after = dict(where)
        for child, above in nodes.moves(change):
            after[child] = (above, None)
        for node in sorted({it for it, _ in nodes.puts(change)}, key=lambda it: [int(k) for k in it.split(".")]):
            here, seen = after.get(node, (None, None))[0], set()
            while here and here != node and here not in seen:
                seen.add(here)
                here = after.get(here, (None, None))[0]
            if here == node:
                return {"cycle": node}
        return {}

    def tell(self, opening):
        trace, world = self.trace, self.world
        for entry in world.entries:
            if entry["void"]:
                entry["why"] = self.why(entry["rev"], entry["void"], entry["n"] - 1)
        says = [self.says(i) for i in range(len(trace.steps))]
        rows = world.blocks()
        row_of_lane = {lane: k for k, row in enumerate(rows) for lane in row.get("lanes", [])}
        look = {lane: row["look"] for row in rows for lane in row.get("lanes", [])}
        lanes = []
        for line in world.lanes:
            lane = line.lane
            lanes.append(
                {
                    "client": line.client.number,
                    "branch": line.branch,
                    "parent": line.parent.lane if line.parent else None,
                    "row": row_of_lane[lane],
                    "since": line.since,
                    "until": line.until,
                    "shows": [list(it) for it in self.shown.get(lane, [])],
                    "stands": [self.stand(line, i, state) for i, state in world.states.get(lane, [])],
                    "void": self.void_by_step(line),
                }
            )
            if line.branch == 0:
                says = self.turned(says, lanes[-1]["void"], line.lane)
        data = {
            "rows": rows,
            "clients": [
                {"name": it.name, "session": it.session, "since": it.since, "until": it.until, "look": look[it.lane]}
                for it in world.clients
            ],
            "lanes": lanes,
            "entries": [
                {key: it[key] for key in ("n", "step", "client", "kind", "rev", "ref")}
                | {"void": self.reason(it["why"]) if it.get("why") else None, "known": it["void"] is not None or it["kind"] != "commit"}
                for it in world.entries
            ],
            "commits": {
                rev: {"lane": it.lane, "step": it.step, "entry": it.entry, "what": self.what(it)} for rev, it in world.commits.items()
            },
            "arrows": [list(it) for it in world.arrows],
            "steps": [self.step(i, *says[i]) for i in range(len(trace.steps))],
            "trees": self.table,
            "opening": opening,
            "ended": self.ended(),
        }
        data["reasons"] = self.reasons
        return data

    def ended(self):
        end = self.trace.ended
        if not end:
            return None
        if end["cause"] == "Many":
            why = f"The trace has {end['steps']} steps. The first {len(self.trace.steps) - 1} are drawn."
        else:
            why = f"The trace ends early: line {end['line']} {ENDS.get(end['cause'], end['cause'])}. What comes before it is drawn."
        return {"cause": end["cause"], "line": end["line"], "why": why, "text": end.get("text")}

    def stand(self, line, i, state):
        received, base, own, opened, connected = state
        return [i, received, list(base), list(own), opened, connected]

    def void_by_step(self, line):
        """Returns from which steps on which commits that aren't received are void on a line, each with why."""
        world, found = self.world, []
        if line.branch == 0:
            states = world.states.get(line.lane, [])
            at, had = -1, {}
            for i, revs, changes in self.voids.get(line.lane, []):
                while at + 1 < len(states) and states[at + 1][0] <= i:
                    at += 1
                received, base, own = states[at][1][:3] if at >= 0 else (0, (), ())
                had = {rev: had[rev] for rev in revs if rev in had}
                for rev in revs:
                    if rev not in had and rev in changes:
                        ahead = [it for it in own[: own.index(rev) if rev in own else 0] if it not in revs]
                        where = self.places.after(self.before(received, ahead))
                        had[rev] = self.reason(self.why(rev, self.cause(changes[rev], where), received, ahead))
                told = [[rev, had[rev]] for rev in revs if rev in had]
                if not found and told or found and found[-1][1] != told:
                    found.append([i, told])
            return found
        inherited = world.lanes[line.parent.lane] if line.parent else None
        start = self.void_at(inherited, line.since) if inherited else []
        if start:
            found.append([line.since, start])
        for i in range(line.since, (line.until or len(self.trace.steps) - 1) + 1):
            about = world.about[i]
            if world.marks[i]["lane"] == line.lane and "void" in about:
                told = [[rev, self.reason(self.branch_why(rev))] for rev in about["void"]]
                found.append([i, told])
        return found

    def turned(self, says, voids, lane):
        """Adds to the steps' sentences which pending commits are void from there on, and which aren't any more."""
        had = {}
        for i, told in voids:
            now = dict(map(tuple, told))
            own = next((own for step, (_, _, own, _, _) in reversed(self.world.states[lane]) if step <= i), ())
            mine = self.world.marks[i]["lane"] == lane
            new = [it for it in now if it not in had]
            back = [it for it in had if it not in now and it in own]
            if mine and new and says[i][1] is None:
                said = f" With that {several(new)}, still pending here, {'is' if len(new) == 1 else 'are'} void."
                says[i] = (says[i][0] + said, joined([self.reasons[now[it]] for it in new[:2]]))
            if mine and back:
                says[i] = (f"{says[i][0]} With that {several(back)} {'is' if len(back) == 1 else 'are'} in effect again.", says[i][1])
            had = now
        return says

    def void_at(self, line, i):
        told = []
        for step, revs in self.void_by_step(line):
            if step <= i:
                told = revs
        return told

    def branch_why(self, rev):
        made, name = self.world.commits.get(rev), nodes.whose(self.world, rev)
        if made and made.needs:
            lost = f"{several(made.needs)}, which isn\u2019t there"
            return f"it needs {lost}.", f"{name} needs {lost} on what the branch stands on now. So nothing of the commit takes effect."
        return "it has no effect there.", f"{name} has no effect on what the branch stands on now."

    def what(self, commit):
        parts = commit.parts
        if len(parts) > 3:
            parts = [*parts[:2], f"{len(parts) - 2} more edits"]
        needs = f", if {several(commit.needs)} {'is' if len(commit.needs) == 1 else 'are'} there" if commit.needs else ""
        return "; ".join(parts) + needs if parts else "does nothing"

    def step(self, i, says, why):
        mark = self.world.marks[i]
        made = {"do": self.trace.steps[i].get("do", "header"), "lane": mark["lane"] if mark else None, "says": says}
        if why is not None:
            made["why"] = self.reason(why)
        if mark and mark.get("refused"):
            made["refused"] = True
        about = self.world.about[i]
        for key in ("rev", "n"):
            if about.get(key) is not None:
                made[key] = about[key]
        made["line"] = self.trace.lines[i].decode()
        made["answer"] = self.trace.said[i].decode()
        return made

    def says(self, i):
        """Returns what a step does, as a sentence, and why it has no effect, if it has none."""
        world, step, answer = self.world, self.trace.steps[i], self.trace.answers[i]
        if i == 0:
            return "The tree at the beginning. Nobody is there yet.", None
        do, about, who = step["do"], world.about[i], short(step.get("client", ""))
        client, branch = about.get("client"), step.get("branch", 0)
        lane = world.marks[i]["lane"]
        on = f" on branch {branch}" if branch else ""
        rev, n = about.get("rev"), about.get("n")
        tree = None
        if do in EDITS or do == "need":
            at = next((it for it in reversed(world.lanes) if client and it.client is client and it.branch == branch and it.since <= i), None)
            number = self.shows(at.lane, i - 1) if at else None
            tree = self.tree(number) if number is not None else None
        if "no" in answer:
            wish = self.wish(step, tree, who, on)
            return f"{who} {wish}: refused.", (refusal(do, answer), f"Refused, and nothing changes: {refusal(do, answer)} ({answer['no']}).")
        if do == "join":
            return f"{who} joins as session {answer['s']}. That is entry {n} of the log.", None
        if do in EDITS:
            words = edit_words(step, tree)
            world.commits[rev].parts.append(words)
            inside = world.commits[rev].step != i
            return f"{who} {words}{on}: {'a part of' if inside else 'commit'} {rev}.", None
        if do == "need":
            named = label_at(tree, step["at"])
            world.commits[rev].needs.append(named)
            return f"{who} puts a condition on {rev}{on}: {named} has to be there.", None
        if do == "begin":
            return f"{who} begins a transaction{on}: it will be commit {rev}.", None
        if do == "commit":
            made = "nothing was edited, so there is no commit" if about["null"] else f"{rev} is one commit"
            return f"{who} closes the transaction{on}: {made}.", None
        if do == "abort":
            return f"{who} drops the transaction {rev}{on}.", None
        if do == "undo":
            world.commits[rev].parts.append(f"takes {step['rev']} back")
            return f"{who} takes {step['rev']} back, by commit {rev}.", None
        if do == "upgrade":
            world.commits[rev].parts.append("widens the schema")
            return f"{who} widens the schema, by commit {rev}.", None
        parent = lambda it: "the main line" if it == 0 else f"branch {it}"
        if do == "fork":
            return f"{who} forks branch {about['new']} from {parent(branch)}.", None
        if do in ("rebase", "merge"):
            void = f" Void there: {', '.join(answer['void'])}." if answer["void"] else ""
            up = world.lanes[lane].parent.branch
            why = joined([self.branch_why(it) for it in answer["void"][:3]])
            if do == "merge":
                return f"{who} merges branch {branch} into {parent(up)}.{void}", why
            return f"{who} lets branch {branch} stand on all that {parent(up)} has by now.{void}", why
        if do == "drop_branch":
            return f"{who} drops branch {branch}.", None
        if do == "ack":
            return f"{who} wants to tell that {answer['ref']} entries have arrived.", None
        if do == "sequence":
            entry = world.entries[n - 1]
            what = entry["rev"] if entry["kind"] == "commit" else f"word of {entry['ref']} entries received"
            return f"{who}\u2019s {what} enters the log, as entry {n}.", None
        if do == "deliver":
            entry = world.entries[n - 1]
            other = world.clients[entry["client"]]
            own = other is client
            name = f"{who}\u2019s own" if own else f"{short(other.name)}\u2019s"
            if entry["kind"] != "commit":
                kinds = {"join": "joining", "leave": "leaving", "drop": "lost connection", "reconnect": "coming back"}
                what = kinds.get(entry["kind"], f"word of {entry['ref']} entries received")
                return f"{who} receives entry {n}: {name} {what}.", None
            more = "" if own else f" ({self.what(world.commits[entry['rev']])})"
            what = f"{who} receives entry {n}: {name} {entry['rev']}{more}."
            if entry["void"]:
                return f"{what} It is void.", entry["why"]
            return what, None
        if do == "leave":
            return f"{who} leaves for good. That is entry {n} of the log.", None
        if do == "drop":
            return f"{who} loses the connection. That is entry {n} of the log.", None
        if do == "reconnect":
            count = answer["sent"]
            again = f" {count} pending commit{'s wait' if count != 1 else ' waits'} to be sent anew." if count else ""
            return f"{who} is back, as entry {n}, and has received all before it.{again}", None
        if do == "show":
            return f"{who} shows the tree{on}.", None
        if do == "pending":
            count = len(answer["pending"])
            return f"{who} tells what is pending: {count if count else 'no'} commit{'' if count == 1 else 's'}.", None
        return f"{who}: {do}.", None

    def wish(self, step, tree, who, on):
        do = step["do"]
        plain = {
            "join": "wants to join",
            "need": "puts a condition on the transaction",
            "begin": "begins a transaction",
            "commit": "commits",
            "abort": "aborts",
            "fork": "forks a branch",
            "rebase": "rebases",
            "merge": "merges",
            "drop_branch": "drops",
            "upgrade": "widens the schema",
            "sequence": "sends",
            "deliver": "receives",
            "ack": "tells what arrived",
            "leave": "leaves",
            "drop": "loses the connection",
            "reconnect": "comes back",
            "show": "shows the tree",
            "pending": "tells what is pending",
        }
        if do == "undo":
            return f"takes {short(step['rev'])} back"
        if do in EDITS:
            if tree is not None and reach(tree, step["at"]) is not None:
                return edit_words(step, tree) + on
            return {"insert": "inserts", "remove": "removes", "move": "moves", "set": "sets a field", "clear": "clears a field"}[do] + on
        if do in ("rebase", "merge", "drop_branch"):
            return f"{plain[do]} branch {step.get('branch', 0)}"
        return plain.get(do, do) + on


def told(program, data, of_all=None):
    return Told(program, data, of_all).data
