"""Nets of which a search could cost more than it should: texts for bench/run.

Each function gives the text of a net. None of them has more than one firing, where it says nothing else.
"""


import random


def numbers(count):
    return ', '.join(map(str, range(count)))


def names(count, letter='v'):
    return ', '.join(f'{letter}{k}' for k in range(count))


def takes(arcs):
    """One node takes so many differing tokens of a place."""
    return (f'net main {{ var {names(arcs)}: int; place p: int = {numbers(arcs)}; place go = [];'
            f' trans t {{ in go; {"".join(f"in p: v{k}; " for k in range(arcs))}}} }}\n')


def leaves(calls):
    """So many called transitions take one token each of a place."""
    return (f'channel c(); net main {{ var x: int; place p: int = {numbers(calls)}; place go = [];'
            f' trans t {{ in go; {"this:c(); " * calls}}} trans leaf {{ :c(); in p: x; }} }}\n')


def equal(count):
    """So many equal tokens, which are moved one by one."""
    return ('net main { var x: int; place p: int = %s; place q: int; trans t { in p: x; out q: x; } }\n'
            % ', '.join(['7'] * count))


def guarded(tokens, last):
    """Three places of so many tokens, and a guard on the one whose arc stands last, or first."""
    places = ' '.join(f'place p{k}: int = {numbers(tokens)};' for k in range(3))
    arcs = [f'in p{k}: v{k};' for k in range(3)]
    arcs = ' '.join(arcs if last else arcs[::-1])
    return f'net main {{ var v0, v1, v2: int; {places} trans t {{ {arcs} guard v2 < 0; }} }}\n'


def tree(levels, answers):
    """A binary tree of calls of so many levels, each with so many answers that may fire."""
    more = ''.join(f'trans other{k} {{ :c(n); guard n > 0; this:c(n - 1); this:c(n - 1); }} ' for k in range(1, answers))
    return ('channel c(int); net main { var n: int; place go = []; '
            f'trans start {{ in go; this:c({levels}); }} '
            'trans node { :c(n); guard n > 0; this:c(n - 1); this:c(n - 1); } '
            f'{more}trans leaf {{ :c(0); }} }}\n')


def dead_tree():
    """A dead net: a call whose two answers call once more each."""
    return ('channel c(); net main { place go = []; trans start { in go; this:c(); } '
            'trans a { :c(); this:c(); this:c(); } trans b { :c(); this:c(); this:c(); } }\n')


def reversed_calls(n, order=None):
    """So many calls squared, each of which needs what the next one answers, in this order in the text."""
    values = names(n)

    def calls(channel, last, first):
        return ''.join(f'this:{channel}({last if k == n - 1 else f"v{k + 1}"}, {first if k == 0 else f"v{k}"}); '
                       for k in (order or range(n)))
    return (f'channel c(int, int); channel d(int, int); net main {{ var x, y, m, {values}: int; place k: int = 1; '
            f'trans t {{ in k: m; {calls("d", "m", "v0")}}} trans u {{ :d(x, y); {calls("c", "x", "y")}}} '
            'trans w { :c(x, y); y = x + 1; } }\n')


def shuffled_calls(n):
    """The same calls in an order in which none stands beside the one that it needs."""
    order = list(range(n))
    random.Random(n).shuffle(order)
    return reversed_calls(n, order)


def idle(calls, tokens):
    """So many calls of two answers that ask for nothing, before two arcs of tokens of which no two pass."""
    return (f'channel c(); net main {{ var x, y: int; place p: int = {numbers(tokens)}; '
            f'place q: int = {numbers(tokens)}; trans t {{ {"this:c(); " * calls}in p: x; in q: y; guard x + y < 0; }} '
            'trans u { :c(); } trans v { :c(); } }\n')


def reversed_equalities(n):
    """So many equalities in one transition, each of which needs the value of the next, a hundred times."""
    equalities = ''.join(f'v{k} = {"m" if k == n - 1 else f"v{k + 1}"} + 1; ' for k in range(n))
    return (f'net main {{ var m, {names(n)}: int; place k: int = 100; '
            f'trans t {{ in k: m; guard m > 0; out k: m - 1; {equalities}}} }}\n')


def creations(callers, each):
    """A firing of so many calls, each of which makes so many instances."""
    made = ''.join(f'w{k}: new n; ' for k in range(each))
    return (f'channel c(); net main {{ var {names(each, "w")}: net; place go = []; '
            f'trans t {{ in go; {"this:c(); " * callers}}} trans make {{ :c(); {made}}} }} net n {{ }}\n')


def nested_creations(callers, calls, each):
    """A firing of so many calls of so many calls each, of which each makes so many instances."""
    made = ''.join(f'w{k}: new n; ' for k in range(each))
    return (f'channel c(); channel d(); net main {{ var {names(each, "w")}: net; place go = []; '
            f'trans t {{ in go; {"this:c(); " * callers}}} trans m {{ :c(); {"this:d(); " * calls}}} '
            f'trans make {{ :d(); {made}}} }} net n {{ }}\n')


def called_tokens(tokens):
    """A recursive call whose answers a token decides, which is taken after the call."""
    return (f'channel c(int); net main {{ var x, n: int; place p: int = {numbers(tokens)}; '
            'trans start { in p: x; this:c(x); } '
            'trans down { :c(n); guard n > 0; this:c(n - 1); this:c(n - 1); } trans base { :c(0); } }\n')


def ring(transitions):
    """A token goes round, against the order of the transitions, 20,000 times."""
    places = ''.join(f'place p{k}{" = []" if k == 0 else ""}; ' for k in range(transitions))
    steps = ''.join(f'trans t{k} {{ in p{k}; out p{(k - 1) % transitions}; }} ' for k in range(transitions))
    return f'net main {{ {places}{steps}}}\n'


def joined(tokens):
    """Pairs that are joined by their second parts, of which none meet."""
    left = ', '.join(f'[{k},{k}]' for k in range(tokens))
    right = ', '.join(f'[{k},{k + tokens}]' for k in range(tokens))
    return (f'net main {{ var x, y, z: int; place p: [int,int] = {left}; place q: [int,int] = {right}; '
            'trans t { in p: [x,y]; in q: [z,y]; } }\n')


def kinds(size):
    """A text of about so many bytes: a place and a variable of one large kind, and arcs between them."""
    parts = ['int'] * (size // 20)
    while len(parts) > 1:
        parts = ['[' + ','.join(parts[k:k + 16]) + ']' for k in range(0, len(parts), 16)]
    kind = parts[0]
    head = f'net main {{ var v: {kind}; place p: {kind}; '
    whole, number = [head], 0
    left = size - len(head) - 2
    arcs = 'in p: v; ' * 190
    while left > len(arcs) + 20 and number < 1000:
        one = f'trans t{number} {{ {arcs}}} '
        whole.append(one)
        left -= len(one)
        number += 1
    return ''.join(whole) + '}\n'


def opened(calls, tokens):
    """Calls of two answers that call no further, and one that narrows two arcs of many tokens."""
    return ('channel c(); channel d(int, int); net main { var x, y, z, w: int; '
            f'place p: int = {numbers(tokens)}; place q: int = {numbers(tokens)}; '
            f'place r: [int,int] = [{tokens + 3},1]; place s: [int,int] = [{tokens + 4},1]; '
            f'trans t {{ in p: x; in q: y; {"this:c(); " * calls}this:d(x, y); }} trans u {{ :c(); }} trans v {{ :c(); }} '
            'trans a { :d(z, w); test r: [z,w]; } trans b { :d(z, w); test s: [z,w]; } }\n')


def delayed(calls, tokens):
    """Two arcs of many tokens, and many calls of which one in the middle excludes all."""
    half = 'this:c(x); ' * (calls // 2)
    return ('channel c(int); channel d(int); net main { var x, y, z: int; '
            f'place p: int = {numbers(tokens)}; place q: int = {numbers(tokens)}; '
            f'trans t {{ in p: x; in q: y; {half}this:d(x); {half}}} '
            'trans u { :c(z); guard z >= 0; } trans v { :d(z); guard z < 0; } }\n')
