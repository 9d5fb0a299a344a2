"""Nets in which several transitions may fire, and how often each of them did: for bench/run."""
from collections import Counter

BUFFER = """net main {
  place ready = [];
  place buffer;
  place waiting = [];
  place eaten;
  trans produce { in ready; out ready; out buffer; }
  trans consume { in waiting; in buffer; out waiting; out eaten; }
}
"""

CLOCK = """net main {
  var n: int;
  place time = [];
  place first: int = 10;
  place second: int = 10;
  trans tick { in time; out time; }
  trans work { in first: n; guard n > 0; out first: n - 1; }
  trans help { in second: n; guard n > 0; out second: n - 1; }
}
"""

LOOP = 'net main { place p = []; trans loop { in p; out p; } trans stop { in p; } }\n'


def instances(count):
    """One firing makes so many instances, each of which may always fire."""
    made = [f'w{k}' for k in range(count)]
    kept = ' '.join(f'out kept: {{{", ".join(made[k:k + 10])}}};' for k in range(0, count, 10))
    return (f'net main {{ var {", ".join(made)}: net; place go = []; place kept: {{net}}; trans make {{ in go; '
            + ' '.join(f'{w}: new spinner;' for w in made)
            + f' {kept} }} }}\nnet spinner {{ place p = []; trans spin {{ in p; out p; }} }}\n')


def pairs(first, second):
    """Two places of so many tokens, of each of which one is taken and put back."""
    places = ' '.join(f'place p{k}: int = {", ".join(map(str, range(n)))};' for k, n in enumerate((first, second)))
    return f'net main {{ var x, y: int; {places} trans t {{ in p0: x; in p1: y; out p0: x; out p1: y; }} }}\n'


def fired(out):
    """What fired, in order: of each firing its instance and transition, and the values of its variables."""
    lines = (line.split(' ', 3) for line in out.decode().split('\nend ')[0].split('\n'))
    return [(line[2], ' '.join(line[3:])) for line in lines if line[2] != '+']


def counts(out, but=''):
    """How often each transition of each instance fired, but for one."""
    return Counter(start for start, _ in fired(out) if start != but)


def last_of_others(out, name):
    """The number of the last firing that isn't by this transition."""
    return max(k for k, (start, _) in enumerate(fired(out), 1) if start != name)
