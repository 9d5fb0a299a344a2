"""Outside what is proved: a run as one page of HTML, from its record and the moves of it.

What the tokens are after each firing comes from the program: the page sums the lines of `renew moves`.
The page has all that it needs in itself, and no address. Its frame is page.html.
"""
import html
import json
import os
import re

import events
import layout
import nets

FRAME = os.path.join(os.path.dirname(os.path.realpath(__file__)), 'page.html')
MOVE = re.compile(r'(\d+) ([-+]) ([A-Za-z]\w*)\[(\d+)\]\.([A-Za-z]\w*) (.*)$', re.S | re.A)
WIDE, LONGEST = 6.7, 44
TURNED = ('out', 'flexout')
# What stands at the end and at the beginning of a line, as Renew draws it.
MARKS = {
    'in': ('arrow', ''), 'out': ('arrow', ''), 'test': ('', ''), 'reserve': ('arrow', 'arrow'),
    'flexin': ('double', ''), 'flexout': ('double', ''), 'inhibit': ('ring', 'ring'), 'clear': ('hollow', ''),
}


def page(title, text, record, moves):
    """The page of a net text, of its record, and of the moves of it."""
    found = nets.nets_of(text)
    data = data_of(found, record, moves)
    pictures = ''.join(figure(k, net) for k, net in enumerate(found))
    with open(FRAME, encoding='utf-8') as file:
        frame = file.read()
    told = json.dumps(data, ensure_ascii=False, separators=(',', ':'))
    for sign in '<>&\u2028\u2029':
        told = told.replace(sign, f'\\u{ord(sign):04x}')
    parts = {'TITLE': html.escape(title), 'PICTURES': pictures, 'DATA': told}
    return re.sub('@(TITLE|PICTURES|DATA)@', lambda match: parts[match[1]], frame)


# The data.


def data_of(found, record, moves):
    """What the script of the page reads. Instances stand by number, nets and values of tokens by index."""
    firings, rows = events.firings_of(record), record[events.header_of(record):].split('\n')
    at, each, texts, line = {net.name: k for k, net in enumerate(found)}, moves_of(moves), {}, 0
    downlinks = {(net.name, it.name): len(it.all('downlink')) for net in found for it in net.transitions}
    made, steps = {1: (at['main'], 0)}, [{'lines': [], 'nodes': []}]
    for k, firing in enumerate(firings, 1):
        lines = rows[line:line + len(firing.nodes) + len(firing.printed)]
        line += len(lines)
        for one, _ in firing.objects():
            name, number = one[:-1].split('[')
            made.setdefault(int(number), (at[name], k))
        steps.append({'lines': [row.split(' ', 1)[1] for row in lines],
                      'nodes': called_by(firing, downlinks)})
    for k, step in enumerate(steps):
        step['moves'] = [(sign, number, place, texts.setdefault(value, len(texts)))
                         for sign, number, place, value in each.get(k, ())]
    lasts = lasts_of(found, made, [each.get(k, ()) for k in range(len(steps))])
    return {
        'nets': [{'name': net.name, 'places': list(net.places)} for net in found],
        'instances': [(number, *made[number], lasts[number]) for number in sorted(made)],
        'channels': channels_of(found), 'steps': steps, 'texts': list(texts), 'end': [row for row in rows[line:] if row],
    }


def called_by(firing, downlinks):
    """The nodes of a firing as (instance, transition, index of the node that calls it): each before those that it calls."""
    nodes, open_calls = [], []
    for k, (net, number, name, _) in enumerate(firing.nodes):
        nodes.append((number, name, open_calls.pop() if k else None))
        open_calls += [k] * downlinks[net, name]
    return nodes


def moves_of(moves):
    """The moves of each step that has some, as (1 or -1, number of the instance, place, value)."""
    steps = {}
    for row in moves.split('\n'):
        match = MOVE.match(row)
        if match:
            move = 1 if match[2] == '+' else -1, int(match[4]), match[5], match[6]
            steps.setdefault(int(match[1]), []).append(move)
    return steps


def lasts_of(found, made, each):
    """The last step after which each instance is live, or None where it is at the end.

    Live is an instance whose net has a transition without uplink, or which a token of a live one names.
    What isn't live stays so, so it is asked again only after steps that take the last such token.
    """
    starts = {k for k, net in enumerate(found) if any(not it.all('uplink') for it in net.transitions)}
    names, parts, lasts, alive = {}, {}, dict.fromkeys(made), set()
    comings = {}
    for number, (_, step) in made.items():
        comings.setdefault(step, []).append(number)
    for step, moves in enumerate(each):
        is_less = False
        for sign, number, _, value in moves:
            if value not in parts:
                parts[value] = [int(one[:-1].split('[')[1]) for one in events.instances_in(value)]
            for one in parts[value]:
                held = names.setdefault(number, {})
                held[one] = held.get(one, 0) + sign
                if not held[one]:
                    del held[one]
                    is_less = True
        alive.update(comings.get(step, []))
        if is_less or step in comings:
            now = reached(names, [it for it in alive if made[it][0] in starts])
            for gone in alive - now:
                lasts[gone] = step - 1
            alive &= now
    return lasts


def reached(names, begin):
    seen, way = set(begin), list(begin)
    while way:
        for to in names.get(way.pop(), ()):
            if to not in seen:
                seen.add(to)
                way.append(to)
    return seen


def channels_of(found):
    """Which transitions may call which: (net, transition, net, transition), by the channels' names alone."""
    answers = {}
    for k, net in enumerate(found):
        for it in net.transitions:
            for link in it.all('uplink'):
                answers.setdefault(link.channel(), []).append((k, it.name))
    return list(dict.fromkeys((k, it.name, *to) for k, net in enumerate(found) for it in net.transitions
                              for link in it.all('downlink') for to in answers.get(link.channel(), [])))


# The pictures.


def shortened(text):
    return text if len(text) <= LONGEST else text[:LONGEST - 1] + '\u2026'


def figure(k, net):
    """The picture of a net: lines first, then nodes, then the inscriptions of arcs."""
    sizes = {('place', name): (max(100, len(name + place.limit()) * WIDE + 30), 44) for name, place in net.places.items()}
    rows = {it.name: [part.text() for part in it.inscriptions if part.kind not in nets.ARCS] for it in net.transitions}
    for name, some in rows.items():
        sizes['trans', name] = max(map(len, [name, *map(shortened, some)])) * WIDE + 18, 21 + 13 * len(some)
    arcs = {}
    for it in net.transitions:
        for arc in it.all(*nets.ARCS):
            label = nets.laid_out(arc.parts)
            arcs.setdefault((it.name, arc.name, arc.kind), []).append('' if label == '[]' else label)
    ends = [(('trans', t), ('place', p)) if kind in TURNED else (('place', p), ('trans', t)) for t, p, kind in arcs]
    spots, routes, (width, height) = layout.picture(sizes, ends)
    parts = [line(key, *route) for key, route in zip(arcs, routes)]
    parts += [ellipse(name, place, spots['place', name], sizes['place', name]) for name, place in net.places.items()]
    parts += [transition(name, rows[name], spots['trans', name], sizes['trans', name]) for name in rows]
    boxes = [(*spots[node], *sizes[node]) for node in sizes]
    parts += [label_of(labels, points, boxes) for labels, (points, _) in zip(arcs.values(), routes)]
    wide, high = width + 28, height + 16
    return (f'<figure data-net="{k}"><figcaption>net <b>{net.name}</b> <select aria-label="instance of {net.name}">'
            f'</select></figcaption><svg width="{wide:.0f}" height="{high:.0f}" viewBox="-14 -8 {wide:.0f} {high:.0f}">'
            f'{"".join(parts)}</svg></figure>')


def line(key, points, is_turned):
    """An arc. A path goes downwards, so the marks of one that is turned change their ends."""
    name, at, kind = key
    way = f'M{points[0][0]:.1f} {points[0][1]:.1f}'
    for (x, y), (to, below) in zip(points, points[1:]):
        half = (y + below) / 2
        way += f'C{x:.1f} {half:.1f} {to:.1f} {half:.1f} {to:.1f} {below:.1f}'
    head, tail = MARKS[kind][::-1] if is_turned else MARKS[kind]
    marks = (f' marker-end="url(#{head})"' if head else '') + (f' marker-start="url(#{tail})"' if tail else '')
    return f'<path class="arc {kind}" data-arc="{name} {at}" d="{way}"{marks}><title>{kind} {at}</title></path>'


def label_of(labels, points, boxes):
    """The inscriptions of an arc, on its line where no box is yet, if there is such a spot."""
    labels = [row for row in labels if row]
    wide, high = max([len(shortened(row)) for row in labels] or [0]) * WIDE, 13 * len(labels)
    spots = []
    for (x, y), (to, below) in list(zip(points, points[1:])) if labels else []:
        for part in (0.5, 0.38, 0.62, 0.26, 0.74):
            spots.append((x + (to - x) * part * part * (3 - 2 * part), y + (below - y) * part))
    for x, y in spots:
        if not any(abs(x - at) * 2 < wide + w and abs(y - up) * 2 < high + h for at, up, w, h in boxes[-500:]):
            break
    else:
        x, y = (spots or [(0, 0)])[0]
    boxes.append((x, y, wide, high))
    return rows_of('label', labels, x, y + 4 - 6.5 * (len(labels) - 1))


def rows_of(kind, rows, x, y):
    """Rows of text below each other, in the middle of a column."""
    if not rows:
        return ''
    spans = ''.join(f'<tspan x="{x:.1f}" dy="{13 if k else 0}">{html.escape(shortened(row))}</tspan>'
                    for k, row in enumerate(rows))
    full = html.escape('\n'.join(rows))
    return f'<text class="{kind}" y="{y:.1f}">{spans}<title>{full}</title></text>'


def ellipse(name, place, spot, size):
    """A place, with its capacity beside its name."""
    x, y = spot
    return (f'<g class="place" data-place="{name}"><title>place {name}: {place.kind}{place.limit()}</title>'
            f'<ellipse cx="{x:.1f}" cy="{y:.1f}" rx="{size[0] / 2:.1f}" ry="{size[1] / 2:.1f}"/>'
            f'<text class="name" x="{x:.1f}" y="{y - 6:.1f}">{name}{place.limit()}</text>'
            f'<text class="tokens" x="{x:.1f}" y="{y + 11:.1f}"></text></g>')


def transition(name, rows, spot, size):
    (x, y), (width, height) = spot, size
    top = y - height / 2
    return (f'<g class="trans" data-trans="{name}"><rect x="{x - width / 2:.1f}" y="{top:.1f}" width="{width:.1f}" '
            f'height="{height:.1f}"/><text class="name" x="{x:.1f}" y="{top + 14:.1f}">{name}</text>'
            f'{rows_of("rows", rows, x, top + 28)}</g>')
