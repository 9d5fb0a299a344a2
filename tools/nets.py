"""Outside what is proved: the parts of a net text that `renew check` accepts, with the spot of each.

Only texts that are accepted are read by this, so nothing is refused here. Inscriptions are lists of
tokens: what they mean is the program's matter alone.
"""
import re

TOKEN = re.compile(r'\s+|//[^\n]*|"(?:\\.|[^"\\])*"|[A-Za-z][A-Za-z0-9_]*|[0-9]+|==|!=|<=|>=|&&|\|\||.', re.S)
ARCS = ('in', 'out', 'test', 'reserve', 'flexin', 'flexout', 'inhibit', 'clear')
OPENING, CLOSING, OPERATORS = '([{', ')]}', ('+', '-', '*', '/', '%')


class Token(str):
    """A token, with its line and column (in bytes), both from 1."""

    line = column = 0


def tokens_of(text):
    """The tokens of a text, without blanks and comments."""
    found, line, start = [], 1, 0
    for match in TOKEN.finditer(text):
        word = match[0]
        if not word[0].isspace() and not word.startswith('//'):
            token = Token(word)
            token.line, token.column = line, len(text[start:match.start()].encode()) + 1
            found.append(token)
        if '\n' in word:
            line, start = line + word.count('\n'), match.start() + word.rindex('\n') + 1
    return found


class Place:
    """A place: its kind, its initial tokens as one line, and its capacity, None where it has none."""

    def __init__(self, kind, initial, capacity):
        self.kind, self.initial, self.capacity = kind, initial, capacity

    def limit(self):
        """What stands beside its name and kind: ` max 5`, or nothing."""
        return '' if self.capacity is None else f' max {self.capacity}'


class Net:
    """A net: its name, variables (name to kind), places (name to place) and transitions."""

    def __init__(self, name):
        self.name, self.vars, self.places, self.transitions = name, {}, {}, []


class Transition:
    """A transition: its name, and its inscriptions in the order of the text."""

    def __init__(self, name):
        self.name, self.inscriptions = name, []

    def all(self, *kinds):
        """Its inscriptions of these kinds."""
        return [it for it in self.inscriptions if it.kind in kinds]


class Inscription:
    """An inscription: `kind` is the word of an arc, or one of guard, print, set, uplink, creation, downlink, equality."""

    def __init__(self, tokens):
        self.tokens, first = tokens, tokens[0]
        second, third = (tokens[1:2] or [''])[0], (tokens[2:3] or [''])[0]
        self.name, self.parts = None, tokens[1:]
        if first in ARCS:
            self.kind, self.name, self.parts = str(first), second, tokens[3:]
        elif first == 'guard':
            self.kind = 'guard'
        elif first == 'action' and second == 'print':
            self.kind, self.parts = 'print', tokens[2:]
        elif first == 'action':
            self.kind, self.name, self.parts = 'set', second, tokens[3:]
        elif first == ':':
            self.kind, self.name, self.parts = 'uplink', second, tokens[3:-1]
        elif second == ':' and third == 'new':
            self.kind, self.name, self.parts = 'creation', first, tokens[3:]
        elif second == ':':
            self.kind, self.name, self.parts = 'downlink', third, tokens[4:-1]
        else:
            self.kind, self.parts = 'equality', tokens

    def channel(self):
        """The channel of a link: its name and its number of arguments."""
        depth = commas = 0
        for token in self.parts:
            depth += (token in OPENING) - (token in CLOSING)
            commas += token == ',' and depth == 0
        return str(self.name), commas + 1 if self.parts else 0

    def text(self):
        """The inscription, laid out as the canonical text has it, nearly."""
        return laid_out(self.tokens)


def laid_out(tokens):
    """Tokens as one line."""
    line = ''
    for at, token in enumerate(tokens):
        before = tokens[at - 1] if at else ''
        is_unary = token == '-' and (not at or before in OPERATORS + ('(', '[', '{', ',', ':', '=', '==', '!=', '<', '<=', '>', '>='))
        wide = token in ('==', '!=', '<', '<=', '>', '>=', '=', '&&', '||', '+', '*', '/', '%') or token == '-' and not is_unary
        words = before[:1].isalnum() and token[:1].isalnum()
        apart = before == ':' and (token == 'new' or at == 3 and tokens[0] in ARCS)
        after_word = before in ('guard', 'action', 'print', 'new') + ARCS
        line += (' ' if wide or words or apart or after_word and at else '') + token + (' ' if wide else '')
    return re.sub(r'\s+', ' ', line).strip()


def nets_of(text):
    """The nets of an accepted text, in its order."""
    tokens, nets = tokens_of(text), []
    at = 3 if tokens[:1] == ['notation'] else 0
    while at < len(tokens):
        if tokens[at] == 'channel':
            at = end_of(tokens, at) + 1
            continue
        net = Net(tokens[at + 1])
        nets.append(net)
        at += 3
        while tokens[at] != '}':
            at = read_part(tokens, at, net)
        at += 1
    return nets


def end_of(tokens, at):
    """The index of the semicolon that ends what begins at an index."""
    while tokens[at] != ';':
        at += 1
    return at


def several(tokens):
    """The inscriptions of a line: of an arc one for each expression, as notation 2 may have several."""
    if tokens[0] not in ARCS:
        return [tokens]
    depth, found = 0, [tokens[:3]]
    for token in tokens[3:]:
        depth += (token in OPENING) - (token in CLOSING)
        if token == ',' and depth == 0:
            found.append(tokens[:3])
        else:
            found[-1] = found[-1] + [token]
    return found


def read_part(tokens, at, net):
    """Adds the part of a net that begins at an index, and returns where the next begins."""
    if tokens[at] == 'trans':
        made, at = Transition(tokens[at + 1]), at + 3
        while tokens[at] != '}':
            end = end_of(tokens, at)
            made.inscriptions += [Inscription(one) for one in several(tokens[at:end])]
            at = end + 1
        net.transitions.append(made)
        return at + 1
    end = end_of(tokens, at)
    part = tokens[at + 1:end]
    if tokens[at] == 'var':
        kind = ''.join(part[part.index(':') + 1:])
        net.vars.update((name, kind) for name in part[:part.index(':')] if name != ',')
    else:
        net.places[part[0]] = place_of(part[1:])
    return end + 1


def place_of(rest):
    """The place of which this follows the name: its kind, `max` and a number, `=` and its initial tokens, or less."""
    cut = rest.index('=') if '=' in rest else len(rest)
    kind, initial, capacity = rest[:cut], laid_out(rest[cut + 1:]), None
    if 'max' in kind:
        kind, capacity = kind[:-2], int(kind[-1])
    return Place(''.join(kind[1:]) or '[]', initial, capacity)
