"""Y1 and Y2 by the definition itself: all ways to read a prefix, each with the productions that are open in it, one by one.

It is far too slow for long texts, and is there to be compared with the chart on short ones.
"""

import chart

MOST = 20_000  # ways of one prefix


def depth(net, stack, kinds):
    return sum(net.owner[state] in kinds for state in stack)


def opened(net, way, back, limit, here):
    """The way on which the production behind `back` is open too."""
    stack, starts = way
    wanted = net.takes[back]
    deeper = (*stack[:-1], back, net.begin[wanted])
    for kinds in chart.STATEMENTS, chart.EXPRESSIONS:
        if wanted in kinds and depth(net, deeper, kinds) == limit + 1:
            starts = starts | {here}
    return deeper, starts


def read(net, ways, symbol, limit, here):
    """The ways on which the token has been read."""
    found, todo, seen = set(), list(ways), set(ways)
    while todo:
        stack, starts = way = todo.pop()
        nexts = []
        for back in net.follows[stack[-1]]:
            if net.is_rule[back]:
                if symbol in net.first[net.takes[back]] or net.takes[back] in net.empty:
                    nexts.append(opened(net, way, back, limit, here))
            elif net.takes[back] == symbol:
                found.add(((*stack[:-1], back), starts))
        if net.ends[stack[-1]] and len(stack) > 1:
            nexts.append((stack[:-1], starts))
        todo += [way for way in nexts if way not in seen]
        seen.update(nexts)
    return found


def verdict(net, tokens, limit):
    """(code, offset) of the first bad place, or None; or False where there are too many ways."""
    ways, deep = {((net.begin["$"],), chart.NONE)}, len(tokens)
    for here, (symbol, at) in enumerate(tokens):
        ways = read(net, ways, symbol, limit, here)
        if not ways:
            return ("Y2", tokens[deep][1]) if deep < here else ("Y1", at)
        if len(ways) > MOST:
            return False
        deep = min(frozenset.intersection(*[starts for _, starts in ways]) | {deep})
    return ("Y2", tokens[deep][1]) if deep < len(tokens) else None
