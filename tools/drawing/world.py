"""Follows a trace by its steps and answers: who is there, which commits wait or are pending, what is in the log, and on
what each line stands. It plays nothing itself: that a step did something is read from its answer."""

EDITS = ("insert", "remove", "move", "set", "clear")
LOG = -1


class Client:
    def __init__(self, number, name, session, step):
        self.number, self.name, self.session, self.since, self.until = number, name, session, step, None
        self.connected, self.received = True, 0
        self.queue, self.lines, self.lane = [], {}, None


class Line:
    """A client's main line, or a branch: the entries that it stands on, the commits of its base, and its own."""

    def __init__(self, lane, client, branch, parent, step):
        self.lane, self.client, self.branch, self.parent, self.since, self.until = lane, client, branch, parent, step, None
        self.received, self.base, self.own, self.open = 0, [], [], None
        self.void = {}

    def is_there(self, step):
        return self.since <= step and (self.until is None or self.until > step)

    def state(self):
        return (self.received, tuple(self.base), tuple(self.own), self.open, self.client.connected)


class Commit:
    def __init__(self, rev, lane, step):
        self.rev, self.lane, self.step, self.entry = rev, lane, step, None
        # what was done in it, in words, the labels of what it needs, and its change where that comes first
        self.parts, self.needs, self.change, self.upgrades = [], [], None, False


class World:
    def __init__(self, steps, answers):
        self.steps, self.answers = steps, answers
        self.clients, self.lanes, self.commits, self.entries, self.arrows = [], [], {}, [], []
        self.here = {}
        # of each step: its lane, its kind of mark, the number of what it is about, and what every line stands on after it
        self.marks, self.about, self.states, self.present = [None], [{}], {}, [[]]
        for i in range(1, len(steps)):
            self.follow(i, steps[i], answers[i])
            self.present.append([(it.name, sorted(it.lines)) for it in self.here.values()])

    def line(self, client, branch, parent, step):
        made = Line(len(self.lanes), client, branch, parent, step)
        self.lanes.append(made)
        client.lines[branch] = made
        return made

    def arrow(self, kind, step, lane, to, to_lane, about=None):
        self.arrows.append((kind, step, lane, to, to_lane, about))

    def enter(self, i, client, kind, rev=None, ref=None):
        n = len(self.entries) + 1
        self.entries.append({"n": n, "step": i, "client": client.number, "kind": kind, "rev": rev, "ref": ref, "void": None})
        return n

    def note(self, i, line):
        states = self.states.setdefault(line.lane, [])
        if not states or states[-1][1] != line.state():
            states.append((i, line.state()))

    def receive(self, i, client, upto):
        main = client.lines[0]
        for n in range(client.received + 1, upto + 1):
            entry = self.entries[n - 1]
            if entry["rev"] in main.own and entry["client"] == client.number:
                main.own.remove(entry["rev"])
            if entry["step"] != i:
                self.arrow("get", entry["step"], LOG, i, main.lane, n)
        client.received = main.received = upto

    def commit(self, i, line, rev):
        made = self.commits.setdefault(rev, Commit(rev, line.lane, i))
        made.lane, made.step = line.lane, i
        line.own.append(rev)
        if line.branch == 0:
            line.client.queue.append(("commit", rev, i))
        return made

    def follow(self, i, step, answer):
        do, name = step["do"], step.get("client")
        client = self.here.get(name)
        branch = step.get("branch", 0)
        at = client.lines.get(branch, client.lines.get(0)) if client else None
        if "no" in answer:
            last = next((it for it in reversed(self.clients) if it.name == name), None)
            lane = at.lane if at else next((it.lane for it in self.lanes if it.client is last), None)
            self.marks.append({"lane": lane, "do": do, "refused": True})
            self.about.append({"client": last, "branch": branch})
            return
        about = {"client": client, "branch": branch, "rev": answer.get("rev")}
        lane = at.lane if at else None
        if do == "join":
            client = Client(len(self.clients), name, answer["s"], i)
            self.clients.append(client)
            self.here[name] = client
            at = self.line(client, 0, None, i)
            client.received = at.received = self.enter(i, client, "join")
            lane = client.lane = at.lane
            about = {"client": client, "branch": 0, "n": at.received}
            self.arrow("enter", i, lane, i, LOG, at.received)
        elif do in EDITS:
            if at.open is None:
                self.commit(i, at, answer["rev"])
        elif do == "begin":
            at.open = answer["rev"]
            self.commits[at.open] = Commit(at.open, lane, i)
        elif do == "commit":
            about["rev"] = answer["rev"] or at.open
            about["null"] = answer["rev"] is None
            at.open = None
            if answer["rev"]:
                self.commit(i, at, answer["rev"])
        elif do == "abort":
            about["rev"], at.open = at.open, None
        elif do in ("undo", "upgrade"):
            at = client.lines[0]
            self.commit(i, at, answer["rev"]).upgrades = do == "upgrade"
        elif do == "fork":
            made = self.line(client, answer["branch"], at, i)
            made.received, made.base, made.void = at.received, [*at.base, *at.own], dict(at.void)
            about["new"] = made.branch
            self.arrow("fork", i, at.lane, i, made.lane)
            self.note(i, made)
        elif do in ("rebase", "merge"):
            parent = at.parent
            if do == "rebase":
                at.received, at.base = parent.received, [*parent.base, *parent.own]
                self.arrow("rebase", i, parent.lane, i, lane)
            else:
                for rev in at.own:
                    parent.own.append(rev)
                    if parent.branch == 0:
                        client.queue.append(("commit", rev, i))
                at.until = i
                del client.lines[branch]
                self.arrow("merge", i, lane, i, parent.lane)
                self.note(i, parent)
            about["void"] = answer["void"]
        elif do == "drop_branch":
            at.until = i
            del client.lines[branch]
        elif do == "ack":
            client.queue.append(("ack", answer["ref"], i))
        elif do == "sequence":
            kind, what, since = client.queue.pop(0) if client.queue else ("commit", None, i)
            n = self.enter(i, client, kind, what if kind == "commit" else None, what if kind == "ack" else None)
            about["n"] = n
            if what in self.commits and kind == "commit":
                made = self.commits[what]
                made.entry, since, lane_from = n, made.step, made.lane
            else:
                lane_from = lane
            self.arrow("send", since, lane_from, i, LOG, n)
        elif do == "deliver":
            n = about["n"] = answer["n"]
            self.receive(i, client, n)
            if answer["void"] is not None:
                self.entries[n - 1]["void"] = answer["void"]
            elif self.entries[n - 1]["kind"] == "commit":
                self.entries[n - 1]["void"] = False
        elif do in ("leave", "drop"):
            n = about["n"] = self.enter(i, client, do)
            self.arrow("enter", i, lane, i, LOG, n)
            if do == "drop":
                client.queue, client.connected = [], False
            else:
                client.until = i
                for line in client.lines.values():
                    line.until = i
                del self.here[name]
        elif do == "reconnect":
            n = about["n"] = self.enter(i, client, "reconnect")
            self.receive(i, client, n)
            client.connected = True
            client.queue = [("commit", rev, i) for rev in client.lines[0].own]
            self.arrow("enter", i, lane, i, LOG, n)
        self.marks.append({"lane": LOG if do == "sequence" else lane, "do": do})
        self.about.append(about)
        if client and name in self.here:
            for line in client.lines.values():
                self.note(i, line)

    def blocks(self):
        """Returns the rows, from above, with the lanes that are in each, the log's among them, and with a number for its colour.

        A client has a row for its main line, and beneath it as many as it has branches at one time. Who joins under a name
        that is free again goes on in the rows of that name; where there are many, in any that are free."""
        blocks = []
        for client in self.clients:
            free = [it for it in blocks if it["until"] is not None and it["until"] < client.since]
            block = next((it for it in free if it["name"] == client.name), free[0] if free and len(blocks) >= 16 else None)
            if not block:
                block = {"rows": [[]]}
                blocks.append(block)
            block["name"], block["until"] = client.name, client.until
            for line in (it for it in self.lanes if it.client is client):
                rows = block["rows"][1:] if line.branch else block["rows"][:1]
                row = next((it for it in rows if not it or self.lanes[it[-1]].until is not None and self.lanes[it[-1]].until < line.since), None)
                if row is None:
                    row = []
                    block["rows"].append(row)
                row.append(line.lane)
        rows = []
        for k, block in enumerate(blocks):
            if k == len(blocks) // 2:
                rows.append({"log": True})
            rows += [{"lanes": row, "look": k, "branch": number > 0} for number, row in enumerate(block["rows"])]
        return rows or [{"log": True}]
