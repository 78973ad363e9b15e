"""Earley's chart over a grammar's automata: which prefixes of a list of tokens are viable, and what each of their trees has.

An item is (state, origin, depth): the production of the state started before token `origin`, and what was read since then
leads to the state. `depth` packs how many statements and how many expressions are round the state, its own production
included, each cut off at two over the limit.

A prefix is viable where an item is left behind its last token, since each production has a text and each item was
expected by another one. What all trees of a prefix have in common is found so: an item holds the places where statements
and expressions of one level too many start in what it has read (`starts`), its context is what all the items that expect
its production have in common, and a prefix has what all its items have in common (`common`). No tree is looked at twice:
where two ways lead to one item, the grammar is ambiguous, and this is told.
"""

STATEMENTS = ("$stmt", "$conc", "$fbody")
EXPRESSIONS = ("$expr",)
NONE = frozenset()


class Ambiguous(Exception):
    """Two trees that begin with the first `count` tokens differ in them."""

    def __init__(self, count):
        super().__init__(count)
        self.count = count


class Column:
    """The items between two tokens."""

    def __init__(self, kernel):
        self.kernel = kernel  # the items directly behind the token before: item -> (starts, ways)
        self.items = None  # all items from which the token behind can be read
        self.waits = {}  # (production, depth) -> the (state behind it, item) that expect it
        self.contexts = {}


class Chart:
    def __init__(self, network, limit=128, refuse_ambiguous=True):
        self.network = network
        self.most = limit + 1  # the depth that is one too many
        self.unit = limit + 3
        self.refuse_ambiguous = refuse_ambiguous
        self.enters = {name: self.entering(name) for name in network.rules}
        self.forget()

    def entering(self, name):
        return (self.unit if name in STATEMENTS else 0) + (1 if name in EXPRESSIONS else 0)

    def forget(self):
        self.symbols = []
        self.columns = [Column({(self.network.begin["$"], 0, 0): (NONE, ())})]
        self.common = [None]  # per column: the first place that all trees of a prefix up to here have in common
        self.deep = False

    def inside(self, depth, name):
        """The depth inside a production, and whether it is the first one too many."""
        added = self.enters[name]
        if not added:
            return depth, False
        statements, expressions = divmod(depth, self.unit)
        if added == 1:
            expressions = min(expressions + 1, self.most + 1)
            return statements * self.unit + expressions, expressions == self.most
        statements = min(statements + 1, self.most + 1)
        return statements * self.unit + expressions, statements == self.most

    def read(self, symbols):
        """Goes over the tokens as far as they are viable, and answers how many these are."""
        same = 0
        while same < min(len(symbols), len(self.symbols)) and symbols[same] == self.symbols[same]:
            same += 1
        del self.columns[same + 1 :], self.common[same + 1 :], self.symbols[same:]
        for symbol in symbols[same:]:
            kernel = self.step(symbol)
            if not kernel:
                break
            self.symbols.append(symbol)
            self.columns.append(Column(kernel))
            self.common.append(self.least_common(kernel))
        return len(self.symbols)

    def step(self, symbol):
        """Fills the last column as far as the next token needs it, and answers the items behind this one."""
        net, here = self.network, len(self.columns) - 1
        column = self.columns[here]
        column.items = items = dict(column.kernel)
        column.waits = waits = {}
        column.contexts = {}
        todo, kernel, emptied = list(items), {}, {}

        def advance(state, parent, at, starts, child):
            item = (state, parent[1], parent[2])
            way = (parent, at, child)
            known = items.get(item)
            if known is not None:
                items[item] = self.merge(known, starts, way, here)
            elif net.ends[state] or symbol in net.can[state]:
                items[item] = (starts, (way,))
                todo.append(item)

        for item in todo:
            state, origin, depth = item
            starts = items[item][0]
            for back in net.follows[state]:
                wanted = net.takes[back]
                if not net.is_rule[back]:
                    if wanted == symbol:
                        behind = (back, origin, depth)
                        way = (item, here, None)
                        known = kernel.get(behind)
                        kernel[behind] = self.merge(known, starts, way, here + 1) if known else (starts, (way,))
                elif symbol in net.first[wanted] or wanted in net.empty:
                    deeper, is_deep = self.inside(depth, wanted)
                    key = (wanted, deeper)
                    if key in waits:
                        waits[key].append((back, item))
                        if key in emptied:
                            advance(back, item, here, starts | items[emptied[key]][0], emptied[key])
                    else:
                        waits[key] = [(back, item)]
                        begun = (net.begin[wanted], here, deeper)
                        items[begun] = (frozenset((here,)) if is_deep else NONE, ())
                        self.deep = self.deep or is_deep
                        todo.append(begun)
            if net.ends[state]:
                key = (net.owner[state], depth)
                if origin == here:
                    emptied[key] = item
                first = self.columns[origin]
                for back, parent in list(first.waits.get(key, ())):
                    advance(back, parent, origin, first.items[parent][0] | starts, item)
        return kernel

    def merge(self, known, starts, way, count):
        if self.refuse_ambiguous:
            raise Ambiguous(count)
        return (known[0] & starts, known[1] + (way,))

    def least_common(self, kernel):
        """The first place where each tree of the prefix has a start that is too deep, or of an earlier prefix."""
        before = self.common[-1]
        if not self.deep:
            return before
        found = None
        for item, (starts, _) in kernel.items():
            every = starts | self.context(item)
            found = every if found is None else found & every
        return min(found | ({before} if before is not None else NONE), default=None)

    def context(self, item):
        """What all that stands round an item has in common."""
        state, origin, depth = item
        column = self.columns[origin]
        key = (self.network.owner[state], depth)
        if key == ("$", 0):
            return NONE
        if key not in column.contexts:
            found = None
            for _, parent in column.waits[key]:
                every = column.items[parent][0] | self.context(parent)
                found = every if found is None else found & every
            column.contexts[key] = found
        return column.contexts[key]

    def count(self):
        """How many trees the tokens have, at most 2; they must have been read to their end."""
        known = {}

        def trees(item, at):
            if (item, at) not in known:
                total = 0
                for parent, where, child in self.ways(item, at):
                    total += trees(parent, where) * (trees(child, at) if child else 1)
                known[item, at] = min(2, total) if self.ways(item, at) else 1
            return known[item, at]

        return min(2, sum(trees(item, len(self.columns) - 1) for item in self.columns[-1].kernel))

    def is_whole(self):
        """Whether the tokens that have been read are a text of the start."""
        self.step(None)
        net = self.network
        return any(net.owner[state] == "$" and net.ends[state] for state, _, _ in self.columns[-1].items)

    def passed(self):
        """The states that a tree of the tokens passes; they must have been read to their end."""
        found, todo = set(), [(next(iter(self.columns[-1].kernel)), len(self.columns) - 1)]
        while todo:
            item, at = todo.pop()
            found.add(item[0])
            for parent, where, child in self.ways(item, at)[:1]:
                todo += [(parent, where)] + ([(child, at)] if child else [])
        return found

    def ways(self, item, at):
        """How an item was come to: (the item before, its column, the item of the production that was read or None)."""
        column = self.columns[at]
        return (column.kernel if item in column.kernel else column.items)[item][1]

    def tree(self):
        """A tree of the tokens, which must have been read to their end: (production, parts); a token is its number."""
        net = self.network

        def parts(item, at):
            """The parts of an item's production that have been read."""
            found = []
            while True:
                ways = self.ways(item, at)
                if not ways:
                    return found[::-1]
                parent, where, child = ways[0]
                found.append((net.owner[child[0]], parts(child, at)) if child else where)
                item, at = parent, where

        return parts(next(iter(self.columns[-1].kernel)), len(self.columns) - 1)[0]
