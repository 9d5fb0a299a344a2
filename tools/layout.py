"""Outside what is proved: where the nodes of a picture stand, and how its lines go between them.

In layers from top to bottom, after Kozo Sugiyama: lines that close a circle are turned round, each node
gets the layer below all that lead to it, long lines are led through points between (unless there are too
many), the order in each layer follows the neighbours, and then each node moves as near to its neighbours as the others let it.
"""
import bisect
import itertools

APART, BETWEEN, ROW, MANY = 26, 62, 760, 4000


def picture(sizes, lines):
    """Of nodes with their (width, height) and lines (from, to): (spots, routes, (width, height)).

    A spot is the middle of a node, as (x, y). The route of a line is a list of points from its upper
    node to its lower one, and whether it leads upwards. Parts without a line between stand in rows.
    """
    spots, routes, x, y, row, wide = {}, {}, 0, 0, 0, 0
    for nodes, numbers in parts_of(sizes, lines):
        inner = {node: sizes[node] for node in nodes}
        found, ways, (width, height) = layered(inner, [lines[number] for number in numbers])
        if x and x + width > ROW:
            x, y, row = 0, y + row + APART, 0
        spots.update((node, (x + at, y + down)) for node, (at, down) in found.items())
        for number, (points, is_turned) in zip(numbers, ways):
            routes[number] = [(x + at, y + down) for at, down in points], is_turned
        wide, x, row = max(wide, x + width), x + width + APART, max(row, height)
    return spots, [routes[number] for number in range(len(lines))], (wide, y + row)


def parts_of(sizes, lines):
    """The connected parts of a picture, each with its nodes and the numbers of its lines; the largest first."""
    near = {node: [] for node in sizes}
    for a, b in lines:
        near[a].append(b)
        near[b].append(a)
    part, parts = {}, []
    for root in sizes:
        if root in part:
            continue
        part[root], way = len(parts), [root]
        for node in way:
            for to in near[node]:
                if to not in part:
                    part[to] = len(parts)
                    way.append(to)
        parts.append(([], []))
    for node in sizes:
        parts[part[node]][0].append(node)
    for number, (a, _) in enumerate(lines):
        parts[part[a]][1].append(number)
    return sorted(parts, key=lambda it: -len(it[0]))


def layered(sizes, lines):
    pairs = list(dict.fromkeys(lines))
    ranks = ranks_of(list(sizes), acyclic(list(sizes), pairs))
    sizes, layers, chains = dict(sizes), [[] for _ in range(max(ranks.values()) + 1)], []
    for node in list(sizes):
        layers[ranks[node]].append(node)
    is_led = sum(abs(ranks[a] - ranks[b]) for a, b in lines) < MANY
    for number, (a, b) in enumerate(lines):
        if ranks[a] > ranks[b]:
            a, b = b, a
        chain = [a]
        for rank in range(ranks[a] + 1, ranks[b] if is_led else 0):
            point = ('point', number, rank)
            sizes[point] = 14, 0
            layers[rank].append(point)
            chain.append(point)
        chains.append(chain + [b])
    near = {node: ([], []) for node in sizes}
    for chain in chains:
        for a, b in zip(chain, chain[1:]):
            near[a][1].append(b)
            near[b][0].append(a)
    layers = ordered(layers, near)
    across = moved(layers, near, sizes)
    left = min(across[node] - sizes[node][0] / 2 for node in across)
    spots, y = {}, 0
    for layer in layers:
        high = max(sizes[node][1] for node in layer)
        for node in layer:
            spots[node] = across[node] - left, y + high / 2
        y += high + BETWEEN
    width = max(spots[node][0] + sizes[node][0] / 2 for node in spots)
    routes = []
    for chain, (a, _) in zip(chains, lines):
        routes.append(([spots[node] for node in chain], chain[0] != a))
    return {node: spots[node] for node in spots if node[0] != 'point'}, ended(routes, chains, sizes), (width, y - BETWEEN)


def acyclic(nodes, pairs):
    """The pairs, of which those that lead back to a node on the way to them are turned round."""
    after = {node: [] for node in nodes}
    for a, b in pairs:
        after[a].append(b)
    state, found = {}, []
    for root in nodes:
        way = [] if root in state else [(root, iter(after[root]))]
        state.setdefault(root, 'open')
        while way:
            node, rest = way[-1]
            to = next(rest, None)
            if to is None:
                state[node] = 'done'
                way.pop()
                continue
            found.append((to, node) if state.get(to) == 'open' else (node, to))
            if to not in state:
                state[to] = 'open'
                way.append((to, iter(after[to])))
    return found


def ranks_of(nodes, pairs):
    """A layer for each node, below all that lead to it, and near to those that it leads to."""
    before, after = {node: [] for node in nodes}, {node: [] for node in nodes}
    for a, b in dict.fromkeys(pairs):
        before[b].append(a)
        after[a].append(b)
    left, ranks = {node: len(before[node]) for node in nodes}, {}
    ready = [node for node in nodes if not left[node]]
    for node in ready:
        ranks[node] = max([ranks[it] + 1 for it in before[node]] or [0])
        for to in after[node]:
            left[to] -= 1
            if not left[to]:
                ready.append(to)
    for node in ready:
        if not before[node] and after[node]:
            ranks[node] = min(ranks[it] for it in after[node]) - 1
    return ranks


def ordered(layers, near):
    """The layers, each in an order with few crossings: by the middle of the neighbours, down and up in turn."""
    best, least = layers, crossings(layers, near)
    rounds = 12 if sum(map(len, layers)) < 400 else 3
    for turn in range(rounds):
        layers = [list(layer) for layer in layers]
        side = turn % 2
        for k in range(1, len(layers)) if side == 0 else range(len(layers) - 2, -1, -1):
            fixed = layers[k - 1 if side == 0 else k + 1]
            at = {node: number for number, node in enumerate(fixed)}
            own = {node: number for number, node in enumerate(layers[k])}
            layers[k].sort(key=lambda node: middle([at[it] for it in near[node][side] if it in at], own[node]))
        count = crossings(layers, near)
        if count < least:
            best, least = layers, count
    return best


def middle(numbers, otherwise):
    return sum(numbers) / len(numbers) if numbers else otherwise


def crossings(layers, near):
    count = 0
    for upper, lower in zip(layers, layers[1:]):
        at, seen = {node: number for number, node in enumerate(lower)}, []
        for node in upper:
            ends = sorted(at[it] for it in near[node][1] if it in at)
            count += sum(len(seen) - bisect.bisect_right(seen, end) for end in ends)
            for end in ends:
                bisect.insort(seen, end)
    return count


def moved(layers, near, sizes):
    """How far to the right each node stands."""
    across = {}
    for layer in layers:
        for node, x in zip(layer, spread([0] * len(layer), gaps_of(layer, sizes))):
            across[node] = x
    for turn in range(10):
        for layer in layers if turn % 2 == 0 else layers[::-1]:
            sides = (0,) if turn % 2 == 0 and turn < 8 else (1,) if turn < 8 else (0, 1)
            wanted = [middle([across[it] for side in sides for it in near[node][side]], across[node]) for node in layer]
            across.update(zip(layer, spread(wanted, gaps_of(layer, sizes))))
    return across


def gaps_of(layer, sizes):
    return [0] + [(sizes[a][0] + sizes[b][0]) / 2 + APART for a, b in zip(layer, layer[1:])]


def spread(wanted, gaps):
    """The numbers that are nearest to those wanted, each at least its gap above the one before."""
    starts, blocks = list(itertools.accumulate(gaps)), []
    for want, start in zip(wanted, starts):
        blocks.append([want - start, 1])
        while len(blocks) > 1 and blocks[-2][0] * blocks[-1][1] > blocks[-1][0] * blocks[-2][1]:
            total, count = blocks.pop()
            blocks[-1][0] += total
            blocks[-1][1] += count
    flat = [total / count for total, count in blocks for _ in range(count)]
    return [it + start for it, start in zip(flat, starts)]


def ended(routes, chains, sizes):
    """The routes, whose ends stand beside each other on the lower or upper edge of their nodes."""
    ports = {}
    for number, (points, _) in enumerate(routes):
        ports.setdefault((chains[number][0], 'below'), []).append((points[1][0], number, 0))
        ports.setdefault((chains[number][-1], 'above'), []).append((points[-2][0], number, -1))
    found = [list(points) for points, _ in routes]
    for (node, side), ends in ports.items():
        width, height = sizes[node]
        step = min(24, width * 0.7 / len(ends))
        for k, (_, number, end) in enumerate(sorted(ends)):
            aside = (k - (len(ends) - 1) / 2) * step
            x, y = found[number][end]
            round_off = (1 - (2 * aside / width) ** 2) ** 0.5 if node[0] == 'place' else 1
            found[number][end] = x + aside, y + (1 if side == 'below' else -1) * height / 2 * round_off
    return [(points, turned) for points, (_, turned) in zip(found, routes)]
