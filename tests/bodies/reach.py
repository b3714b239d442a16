"""What code can reach of the items of a tree: the closure by names, over the code's crate and all below it."""
import hashlib

from .items import without_layout


def places_in(number):
    """Yields the places of the bits of a number, the lowest first."""
    text = bin(number)[:1:-1]
    at = text.find("1")
    while at >= 0:
        yield at
        at = text.find("1", at + 1)


def above(file):
    """Returns the files of a module and of those in which it is: their private imports can be named in it."""
    found, folder = [file], file.rpartition(".")[0]
    while folder := folder.rpartition("/")[0]:
        found += [f"{folder}{it}" for it in (".rt", "/mod.rt", "/lib.rt", "/main.rt", ".antt", "/Lib.antt")]
    return found


class Reach:
    """The items of some crates, each with those that it names. A set of items is a number, a bit for each. `below` has for each crate its own name and those of
    all below it: an item names none above its crate."""

    def __init__(self, items, below):
        self.items, self.calls, self.modules = items, {}, {}
        self.named, self.local, self.called, self.having, of_crate = {}, {}, {}, {}, {}
        self.spreading = 0
        for at, it in enumerate(items):
            bit = 1 << at
            named = self.local.setdefault((it.crate, it.file), {}) if it.is_local else self.named
            for table, keys in ((of_crate, [it.crate]), (self.having, it.words), (self.called, it.calls), (named, it.names)):
                for key in keys:
                    table[key] = table.get(key, 0) | bit
            self.spreading |= bit if it.spreads else 0
        self.seen_from = {crate: sum(of_crate.get(it, 0) for it in names) for crate, names in below.items()}
        self.conditions = self.conditions_of_all(below)
        self.bound = sum(1 << at for at, it in enumerate(self.conditions) if it)
        self.always = sum(1 << at for at, it in enumerate(items) if not (it.names or it.calls or self.conditions[at]))
        self.steps = [self.of_words(it.crate, it.file, it.words) for it in items]
        self.closures = closures(self.steps)
        self.digests = [hashlib.sha256(f"{it.crate}/{it.file}\0{without_layout(it.text, it.file.endswith('.rt'))}".encode()).digest() for it in items]

    def conditions_of_all(self, below):
        """Returns of each item its conditions that hold of what its crate sees: the names of types and traits that are declared there, and are no other name
        of anything. By another name a type could be reached without that word."""
        known = {}
        for crate, names in below.items():
            of = {kind: {name for it in self.items if it.kind == kind and it.crate in names for name in it.names} for kind in ("type", "alias")}
            known[crate] = of["type"] - of["alias"]
        return [it.conditions & known[it.crate] for it in self.items]

    def of_words(self, crate, file, words):
        """Returns the items that these words of a file name."""
        found = 0
        for it in words & self.named.keys():
            found |= self.named[it]
        found &= self.seen_from[crate]
        if (crate, file) not in self.modules:
            self.modules[crate, file] = [self.local[crate, it] for it in above(file) if (crate, it) in self.local]
        for table in self.modules[crate, file]:
            for it in words & table.keys():
                found |= table[it]
        return found

    def of_call(self, crate, file, words):
        """Returns the functions that code of a file calls with these words, and the imports, constants and macros that it names."""
        found = self.of_words(crate, file, words) & self.spreading
        for it in words & self.called.keys():
            found |= self.called[it] & self.seen_from[crate]
        return found

    def of_code(self, crate, file, words):
        """Returns what code with these words calls, itself or by way of an import, a constant or a macro. What a macro says is read where it is called, too."""
        found, done = self.of_call(crate, file, words), 0
        while due := found & self.spreading & ~done:
            done |= due
            for at in places_in(due):
                it = self.items[at]
                if at not in self.calls:
                    self.calls[at] = self.of_call(it.crate, it.file, it.words)
                found |= self.calls[at] | (self.of_call(crate, file, it.words) if it.kind == "macro" else 0)
        return found

    def closed(self, found):
        """Returns these items with all that they name."""
        due = found
        for at in places_in(found):
            if due >> at & 1:
                found |= self.closures[at]
                due &= ~self.closures[at]
        return found

    def of(self, crate, file, words):
        """Returns the items that code with these words reaches, in a file of a crate."""
        seen = self.seen_from[crate]
        called = self.of_code(crate, file, words) | self.always & seen
        found = self.closed(self.of_words(crate, file, words) | called & ~self.bound)
        # an impl that no code calls by a function's name is bound by its conditions alone
        due, is_more = [at for at in places_in(self.bound & seen) if not self.items[at].calls or called >> at & 1], True
        while is_more:
            is_more, left = False, []
            for at in due:
                if all(it in words or self.having[it] & found for it in self.conditions[at]):
                    found |= self.closures[at]
                    is_more = True
                else:
                    left.append(at)
            due = left
        return found

    def sum(self, found):
        """Returns the digest of a set of items."""
        return hashlib.sha256(b"".join(self.digests[at] for at in places_in(found))).digest()


def closures(steps):
    """Returns of each place the set of all places that lead from it, itself among them: the components of the graph, each after those to which it leads, by
    Tarjan's algorithm."""
    found, number, low, path, count = [0] * len(steps), [0] * len(steps), [0] * len(steps), [], 0
    for root in range(len(steps)):
        work = [] if number[root] else [(root, places_in(steps[root]))]
        while work:
            at, rest = work[-1]
            if not number[at]:
                count += 1
                number[at] = low[at] = count
                path.append(at)
            for to in rest:
                if not number[to]:
                    work.append((to, places_in(steps[to])))
                    break
                if not found[to]:  # it is on the path
                    low[at] = min(low[at], low[to])
            else:
                work.pop()
                if work:
                    low[work[-1][0]] = min(low[work[-1][0]], low[at])
                if low[at] == number[at]:
                    close(path, at, steps, found)
    return found


def close(path, first, steps, found):
    """Takes a component off the path, from this first place on, and notes what leads from it."""
    inside = [path.pop()]
    while inside[-1] != first:
        inside.append(path.pop())
    all_of, due = sum(1 << it for it in inside), 0
    for it in inside:
        due |= steps[it]
    due &= ~all_of
    for it in places_in(due):
        if due >> it & 1:
            all_of |= found[it]
            due &= ~found[it]
    for it in inside:
        found[it] = all_of
