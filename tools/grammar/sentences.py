"""Random texts of a grammar, by its productions."""

import functools

WORDS = {
    "id": ["a", "b", "Clk", "x1", "u_v", "work"],
    "int": ["0", "7", "1_000", "16#fF#", "2#1#e3"],
    "char": ["'0'", "'a'", "'''", "' '"],
    "string": ['"01"', '""', '"a""b"', '"and"'],
    "bitstring": ['b"01"', 'X"f_0"', 'o"7"'],
}


class Sentences:
    def __init__(self, rules, random):
        self.rules = rules
        self.random = random
        self.least = {}  # how many productions stand in each other at least
        before = None
        while before != self.least:
            before = dict(self.least)
            for name, rule in rules.items():
                depth = self.depth(rule)
                if depth is not None:
                    self.least[name] = depth + 1
        self.depth = functools.lru_cache(None)(self.depth)

    def depth(self, node):
        form, parts = node[0], node[1:]
        if form == "one":
            return self.least.get(parts[0]) if parts[0] in self.rules else 0
        if form in ("maybe", "many"):
            return 0
        depths = [self.depth(part) for part in parts]
        if form == "or":
            return min((depth for depth in depths if depth is not None), default=None)
        return None if None in depths else max(depths)

    def fits(self, node, room):
        depth = self.depth(node)
        return depth is not None and depth <= room

    def text(self, name, size):
        """A text of a production, as a list of written tokens; it goes to its end by short ways once it has `size`."""
        self.left = size
        return self.of(self.rules[name], 1000)

    def of(self, node, room):
        form, parts = node[0], node[1:]
        if form == "one":
            symbol = parts[0]
            if symbol in self.rules:
                room = room if self.left > 0 else 0
                return self.of(self.rules[symbol], max(room, self.least[symbol]) - 1)
            self.left -= 1
            return [] if symbol == "End" else [self.random.choice(WORDS.get(symbol, [symbol]))]
        if form == "or":
            least = min(self.depth(part) for part in parts)
            return self.of(self.random.choice([part for part in parts if self.fits(part, max(room, least))]), room)
        if form == "then":
            return [word for part in parts for word in self.of(part, room)]
        times = {"maybe": [0, 1], "many": [0, 0, 1, 2], "some": [1, 1, 2]}[form]
        count = self.random.choice(times)
        if not self.fits(parts[0], room):
            count = 1 if form == "some" else 0
        return [word for _ in range(count) for word in self.of(parts[0], room)]
