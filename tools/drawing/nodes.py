"""Names of nodes in words, where nodes come to stand, and why a commit is void."""
import json

SHORT = 28


def short(text, most=SHORT):
    """Returns a text in one line that is not too long, with what can't be seen made visible."""
    cut = text[: most + 1]
    unseen = lambda it: it in "\u007f\u2028\u2029\ufffe\uffff" or "\u202a" <= it <= "\u202e" or "\u2066" <= it <= "\u2069"
    plain = "".join(chr(0x2400 + ord(it)) if it < " " else "\u2423" if unseen(it) else it for it in cut)
    return plain if len(text) <= most else plain[: most - 1] + "\u2026"


def said(value):
    """Returns a leaf's value in words."""
    return f"\u201c{short(value)}\u201d" if isinstance(value, str) else json.dumps(value)


def kind_of(tree):
    """Returns the type and the content of what is no leaf, or none."""
    return next(iter(tree.items())) if isinstance(tree, dict) and tree else None


def inside(tree):
    """Returns what stands directly in a tree's root, in order."""
    inner = kind_of(tree)
    return [] if not inner else inner[1] if isinstance(inner[1], list) else list(inner[1].values())


def first_leaf(tree):
    """Returns in words the first text in a tree, else its first leaf, or none. It looks at so many nodes at most."""
    todo, found = [tree], None
    for _ in range(200):
        if not todo:
            break
        here = todo.pop()
        if isinstance(here, str):
            return said(here)
        if not isinstance(here, dict):
            found = found or said(here)
        todo += reversed(inside(here))
    return found


TITLES = ("title", "name", "label", "key", "id")


def label(tree, root=False):
    """Returns what a reader calls the root of a tree: a leaf by its value, else its type with its title or the first text in it."""
    inner = kind_of(tree)
    if not inner:
        return said(tree)
    name = short(inner[0])
    if root:
        return f"the {name}"
    titles = [inner[1][it] for it in TITLES if isinstance(inner[1], dict) and isinstance(inner[1].get(it), str)]
    if titles:
        return f"the {name} {said(titles[0])}"
    leaf = first_leaf(tree)
    return f"the {name} with {leaf}" if leaf else f"the {name}" if inside(tree) else f"the empty {name}"


def label_at(tree, path):
    """Returns what a reader calls the node at a path: what stands in a field of an object, by that."""
    here = reach(tree, path)
    if here is None:
        return "what is there"
    if path and path[-2] and kind_of(here):
        return f"\u201c{short(path[-2])}\u201d of {label_at(tree, path[:-2])}"
    return label(here, not path)


def several(labels):
    if len(labels) > 3:
        labels = [*labels[:2], f"{len(labels) - 2} more"]
    return labels[0] if len(labels) == 1 else ", ".join(labels[:-1]) + " and " + labels[-1] if labels else "nothing"


def reach(tree, path):
    """Returns what a path leads to in a tree, or none."""
    for key, index in zip(path[::2], path[1::2]):
        inner = kind_of(tree)
        if not inner:
            return None
        items = inner[1] if isinstance(inner[1], list) and key == "" else None
        if items is None:
            items = [inner[1][key]] if isinstance(inner[1], dict) and key in inner[1] else []
        if not 0 <= index < len(items):
            return None
        tree = items[index]
    return tree


def row_of(tree):
    inner = kind_of(tree)
    return inner[1] if inner and isinstance(inner[1], list) else []


class Places:
    """Which nodes there are, as labels, and where each stands: beneath which node, and by whose commit."""

    def __init__(self, tree):
        self.labels, self.opening, self.fields = {}, {}, {}
        todo, number = [(tree, None, None)], 0
        while todo:
            here, above, field = todo.pop()
            name = f"0.0.{number}"
            if field is not None:
                self.fields[above, field] = name
            self.labels[name], self.opening[name] = label(here, not number), (above, None)
            number += 1
            inner = kind_of(here)
            if inner:
                is_row = isinstance(inner[1], list)
                keys = [] if is_row else sorted(inner[1], key=lambda it: it.encode())
                items = [(it, name, None) for it in inner[1]] if is_row else [(inner[1][key], name, key) for key in keys]
                todo += reversed(items)

    def learn(self, change):
        """Takes the labels of the nodes that a change makes."""
        leaves = {it[0]: it[2] if len(it) > 2 else None for it in change.get("new", []) if it[1] in ("null", "bool", "int", "text")}
        types = {it[0]: it[1] for it in change.get("new", [])}
        beneath = {}
        for child, above in puts(change):
            beneath.setdefault(above, []).append(child)
        for name, kind in types.items():
            if name in leaves:
                self.labels[name] = said(leaves[name])
                continue
            todo, found, seen = [name], None, 0
            while todo and found is None and seen < 50:
                here, seen = todo.pop(0), seen + 1
                found = here if here in leaves else None
                todo += beneath.get(here, [])
            kind = short(kind)
            self.labels[name] = f"the {kind} with {said(leaves[found])}" if found else f"the new {kind}"

    def name(self, node):
        return self.labels.get(node, f"the node {node}")

    def after(self, commits):
        """Returns where nodes stand after these changes, in their order: beneath which node, and by which revision."""
        where, held = dict(self.opening), dict(self.fields)
        field_of = {node: field for field, node in held.items()}
        for change in commits:
            for above, key, _, _, clears, _ in change.get("regs", []):
                # (whoever is in the field by then goes)
                if clears and (above, key) in held:
                    node = held.pop((above, key))
                    where[node] = (None, change["rev"])
                    field_of.pop(node, None)
            for node, above in moves(change):
                held.pop(field_of.pop(node, None), None)
                where[node] = (above, change["rev"])
            for above, key, old, how, _, fill in change.get("regs", []):
                node = fill if fill is not None else old if how == "set" else None
                if node is not None:
                    held[above, key] = node
                    field_of[node] = (above, key)
        return where


def puts(change):
    """Yields what a change puts beneath a node."""
    for above, marks in change.get("rows", []):
        for mark in marks:
            if isinstance(mark, list) and mark[0] in ("make", "fill", "set"):
                yield mark[2], above
    for above, _, held, how, _, fill in change.get("regs", []):
        if fill is not None:
            yield fill, above
        elif held is not None and how == "set":
            yield held, above


def moves(change):
    """Yields where a change lets nodes stand, nowhere among it."""
    placed = dict(puts(change))
    for _, marks in change.get("rows", []):
        for mark in marks:
            if isinstance(mark, list) and mark[0] == "out" and mark[2] not in placed:
                yield mark[2], None
    for _, _, held, how, _, _ in change.get("regs", []):
        if held is not None and held not in placed and how == "out":
            yield held, None
    yield from placed.items()


def whose(world, rev, upto=0):
    """Returns a commit as one speaks of it: whose it is, its revision, and its entry where that is one of the first."""
    made = world.commits.get(rev)
    if not made:
        return f"commit {rev}"
    entry = f" (entry {made.entry})" if made.entry and made.entry <= upto else ""
    return f"{short(world.lanes[made.lane].client.name)}\u2019s {rev}{entry}"


def why_needed(world, places, where, rev, node, upto):
    """Returns in short, and in a sentence or two, why a commit is void that needs a node: who took it out, or what it stood in."""
    name, (here, seen) = whose(world, rev), (node, set())
    brief = f"it needs {places.name(node)}, which is gone."
    while here in where and here not in seen:
        seen.add(here)
        above, by = where[here]
        if above is None and here != "0.0.0":
            lost = places.name(here)
            gone = f"{lost} is gone" if here == node else f"{lost}, in which it stood, is gone"
            took = f": {whose(world, by, upto)} took it out" if by else ""
            return brief, f"{name} needs {places.name(node)}, but {gone}{took}. So nothing of the commit takes effect."
        here = above
    return brief, f"{name} needs {places.name(node)}, which isn\u2019t there any more. So nothing of the commit takes effect."


def why_cycle(world, places, where, rev, node, upto):
    """Says by whose commits what the node is put into stands in the node itself."""
    name, commit = places.name(node), whose(world, rev)
    change = world.commits[rev].change if rev in world.commits else None
    target = dict(puts(change)).get(node) if change else None
    own = dict(moves(change)) if change else {}
    links, here, seen = [], target, set()
    while here and here != node and here not in seen:
        seen.add(here)
        above, by = (own[here], None) if here in own else where.get(here, (None, None))
        if by:
            links.append((here, above, by))
        here = above
    if target and target != node and here == node and links:
        child, above, by = links[0]
        other = whose(world, by, upto)
        return f"{name} would be inside itself, for {other} comes before it.", (
            f"{commit} puts {name} into {places.name(target)}. "
            f"But {other}, which comes before it, put {places.name(child)} into {places.name(above)}. "
            f"Both would leave {name} inside itself, a ring that hangs from nothing. So the later of the two, {rev}, has no effect."
        )
    return f"{name} would be inside itself.", f"With {commit} {name} would stand inside itself, a ring that hangs from nothing. So it has no effect."


VOID_UPGRADE = "So this upgrade is void, and with it all that is made under it."


def why_schema(world, rev, of, before, upto):
    name = whose(world, rev)
    if rev in world.commits and world.commits[rev].upgrades:
        schema = "the opening schema" if of == "0.0" else f"the schema of {of}"
        if not before:
            return "another upgrade came first.", f"{name} widens {schema}, which is not the last one in effect any more. {VOID_UPGRADE}"
        other = whose(world, before, upto)
        whole = f"{name} widens {schema}, but {other} came first and did that. {VOID_UPGRADE}"
        return f"{other} widened the schema first.", whole
    whole = f"{name} was made under the schema of {of}, an upgrade that is void. So it is void, too."
    return f"the upgrade {of}, under which it was made, is void.", whole
