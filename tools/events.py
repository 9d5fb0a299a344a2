"""Outside what is proved: the run that a record says, as an event log for process mining.

Each firing is an event, and each instance an object, whose type is its net. A run has no times: the step
of a firing stands as so many seconds after the beginning of 1970. Characters that XML can't have, as
most control characters, stand as U+FFFD in XES.
"""
import json
import re
import time
from xml.sax.saxutils import quoteattr

NODE = re.compile(r'([A-Za-z][A-Za-z0-9_]*)\[(\d+)\]\.([A-Za-z][A-Za-z0-9_]*)(.*)$', re.S)
TEXT = re.compile(r'"(?:\\.|[^"\\])*"')
NO_XML = re.compile('[^\t\n\r\x20-\ud7ff\ue000-\ufffd\U00010000-\U0010ffff]')
INSTANCE = re.compile(r'([A-Za-z][A-Za-z0-9_]*)\[(\d+)\]')


class Firing:
    """A firing: its step, its worker, its nodes as (net, number, transition, values), and what it printed."""

    def __init__(self, step, worker):
        self.step, self.worker, self.nodes, self.printed = step, worker, [], []

    def name(self):
        return f'{self.nodes[0][0]}.{self.nodes[0][2]}'

    def objects(self):
        """The instances that take part or are named, each with how: (instance, word) without repeats."""
        found = []
        for k, (net, number, transition, values) in enumerate(self.nodes):
            found.append((f'{net}[{number}]', 'fires' if k == 0 else f'answers as {transition}'))
            found += [(one, f'is {name}') for name, value in values for one in instances_in(value)]
        return list(dict.fromkeys(found))


def instances_in(value):
    return [match[0] for match in INSTANCE.finditer(TEXT.sub('""', value))]


def values_of(text):
    """The values of a node, as (name, text)."""
    found, rest = [], text
    while rest:
        match = re.match(r' ([A-Za-z][A-Za-z0-9_]*)=((?:"(?:\\.|[^"\\])*"|[^ "])*)', rest)
        if not match:
            break
        found.append((match[1], match[2]))
        rest = rest[match.end():]
    return found


def header_of(record):
    """How long the first line of a record is that names its format. Format 1 has none."""
    return len('run 2\n') if record.startswith('run 2\n') else 0


def firings_of(record):
    """The firings of a record that was replayed."""
    found = []
    for row in record[header_of(record):].split('\n'):
        match = re.match(r'(\d+) w(\d+) (\+ |> )?(.*)$', row, re.S)
        if not match:
            break
        if not match[3]:
            found.append(Firing(int(match[1]), int(match[2])))
        if match[3] == '> ':
            found[-1].printed.append(match[4])
        else:
            node = NODE.match(match[4])
            found[-1].nodes.append((node[1], int(node[2]), node[3], values_of(node[4])))
    return found


def time_of(step):
    return time.strftime('%Y-%m-%dT%H:%M:%SZ', time.gmtime(step))


def attributes_of(firing):
    """What else a firing says, as (name, text). No variable has a dot in its name."""
    found = [('run.worker', str(firing.worker))]
    for k, (net, number, transition, values) in enumerate(firing.nodes):
        before = '' if k == 0 else f'{k}.{net}.{transition}.'
        found += [(before + name, value) for name, value in values]
    return found + [(f'run.printed.{k}', value) for k, value in enumerate(firing.printed, 1)]


def ocel(record):
    """The run as an object-centric event log: the JSON form of OCEL 2.0."""
    firings = firings_of(record)
    names, types, objects, events = {}, {}, {}, []
    for firing in firings:
        related = []
        for one, how in firing.objects():
            objects.setdefault(one, one[:one.index('[')])
            related.append({'objectId': one, 'qualifier': how})
        told = attributes_of(firing)
        names.setdefault(firing.name(), {}).update((name, 'string') for name, _ in told)
        events.append({'id': str(firing.step), 'type': firing.name(), 'time': time_of(firing.step),
                       'attributes': [{'name': name, 'value': value} for name, value in told], 'relationships': related})
    types = dict.fromkeys(objects.values())
    log = {
        'objectTypes': [{'name': name, 'attributes': []} for name in types],
        'eventTypes': [{'name': name, 'attributes': [{'name': one, 'type': kind} for one, kind in kinds.items()]}
                       for name, kinds in names.items()],
        'objects': [{'id': one, 'type': kind, 'attributes': [], 'relationships': []} for one, kind in objects.items()],
        'events': events,
    }
    return json.dumps(log, indent=1, ensure_ascii=False) + '\n'


def xes(record):
    """The run as an XES log: a trace for each instance, with the events in which it takes part."""
    traces = {}
    for firing in firings_of(record):
        for net, number, transition, values in firing.nodes:
            traces.setdefault((number, f'{net}[{number}]'), []).append((firing, f'{net}.{transition}', values))
    rows = ['<?xml version="1.0" encoding="UTF-8"?>', '<log xes.version="1.0" xmlns="http://www.xes-standard.org/">',
            '  <extension name="Concept" prefix="concept" uri="http://www.xes-standard.org/concept.xesext"/>',
            '  <extension name="Time" prefix="time" uri="http://www.xes-standard.org/time.xesext"/>']
    for (_, one), parts in sorted(traces.items()):
        rows += ['  <trace>', f'    <string key="concept:name" value={quoteattr(one)}/>']
        for firing, name, values in parts:
            rows += ['    <event>', f'      <string key="concept:name" value={quoteattr(name)}/>',
                     f'      <date key="time:timestamp" value="{time_of(firing.step)}"/>',
                     f'      <int key="run.step" value="{firing.step}"/>', f'      <int key="run.worker" value="{firing.worker}"/>']
            rows += [f'      <string key={quoteattr(key)} value={quoteattr(NO_XML.sub(chr(0xfffd), value))}/>' for key, value in values]
            rows.append('    </event>')
        rows.append('  </trace>')
    return '\n'.join([*rows, '</log>']) + '\n'
