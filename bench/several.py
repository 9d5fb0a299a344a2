"""Nets for several workers: texts for bench/run.

In the first a search is short, so one worker fires as fast as several could. In the others it is long.
"""
import random


def counter(firings):
    """One token, which counts down."""
    return ('net main { var n: int; place left: int = %d; trans t { in left: n; guard n > 0; out left: n - 1; } }\n'
            % firings)


def sieve(below):
    """The sieve of Eratosthenes by the primes below 32: a chain of nets, of which each keeps one."""
    return """channel pass(int);
channel prime(int);
net main {
  var n: int;
  var f: net;
  place next: int = 2;
  place chain: net;
  trans first { in next: 2; f: new filter; f:prime(2); out chain: f; out next: 3; }
  trans send { in next: n; guard n > 2 && n < %d; reserve chain: f; f:pass(n); out next: n + 1; }
}
net filter {
  var p, n: int;
  var f: net;
  place own: int;
  place last;
  place following: net;
  trans take { :prime(p); out own: p; out last; }
  trans divides { :pass(n); test own: p; guard n %% p == 0; }
  trans hand_on { :pass(n); test own: p; guard n %% p != 0; reserve following: f; f:pass(n); }
  trans grow { :pass(n); test own: p; guard n %% p != 0 && n < 32; in last; f: new filter; f:prime(n); out following: f; }
  trans stays { :pass(n); test own: p; guard n %% p != 0 && n >= 32; test last; }
}
""" % below


def quicksort(count):
    """Quicksort by nets: each keeps the first number that it gets, and hands on the others to one for what is
    less and one for what isn't."""
    numbers = list(range(count))
    random.Random(1).shuffle(numbers)
    return """channel put(int);
net main {
  var n: int;
  var s: net;
  place numbers: int = %s;
  place begin = [];
  place sort: net;
  trans begin { in begin; s: new part; out sort: s; }
  trans hand { in numbers: n; reserve sort: s; s:put(n); }
}
net part {
  var n, p: int;
  var a, b: net;
  place empty = [];
  place pivot: int;
  place rest: int;
  place less: net;
  place other: net;
  trans first { :put(n); in empty; a: new part; b: new part; out pivot: n; out less: a; out other: b; }
  trans keep { :put(n); test pivot: p; out rest: n; }
  trans down { in rest: n; test pivot: p; guard n < p; reserve less: a; a:put(n); }
  trans up { in rest: n; test pivot: p; guard n >= p; reserve other: b; b:put(n); }
}
""" % ', '.join(map(str, numbers))


def philosophers(count, meals):
    """Philosophers as instances, which take the forks of a table by calls. Each eats so often."""
    return """channel sit(int,int,net);
channel take(int);
channel give(int);
net main {
  var k: int;
  var p: net;
  place seats: int = %s;
  place forks: int = %s;
  trans seat { in seats: k; p: new philosopher; p:sit(k,(k + 1) %% %d,this); }
  trans take { :take(k); in forks: k; }
  trans give { :give(k); out forks: k; }
}
net philosopher {
  var l, r, m: int;
  var t: net;
  place at: [int,int,net];
  place hungry: int;
  place eating: int;
  trans sit { :sit(l,r,t); out at: [l,r,t]; out hungry: %d; }
  trans eat { in hungry: m; guard m > 0; test at: [l,r,t]; t:take(l); t:take(r); out eating: m - 1; }
  trans rest { in eating: m; test at: [l,r,t]; t:give(l); t:give(r); out hungry: m; }
}
""" % (', '.join(map(str, range(count))), ', '.join(map(str, range(count))), count, meals)


def searchers(instances, tokens, firings):
    """So many instances, each of which fires so often by two transitions in turn. The one whose turn it isn't has
    as many pairs to be looked through in vain as tokens squared."""
    arcs = 'in left: n; guard n > 0; out left: n - 1; in turn: f; out turn: 1 - f; test p: x; test p: y;'
    most = 2 * tokens - 3
    return """net main {
  var k: int;
  var a: net;
  place births: int = %d;
  trans make { in births: k; guard k > 0; out births: k - 1; a: new one; }
}
net one {
  var n, x, y, f: int;
  place left: int = %d;
  place turn: int = 0;
  place p: int = %s;
  trans a { %s guard x + y - f * 100000 > %d; }
  trans b { %s guard x + y - (1 - f) * 100000 > %d; }
}
""" % (instances, firings, ', '.join(map(str, range(tokens))), arcs, most, arcs, most)


def tiny(number):
    """Nets of a few firings, each of another form."""
    forms = [
        'net main { var x: int; place p: int = 1, 2; trans t { in p: x; } }\n',
        'net main { var x: int; place p: int; trans t { in p: x; } }\n',
        counter(20),
        'net main { var x: net; place p = [], [], []; place q: net; trans t { in p; x: new w; out q: x; } }\n'
        'net w { place s = [], []; trans u { in s; } }\n',
        'net main { var x, y: int; place p: int = %s; trans t { in p: x; in p: y; guard x + y == 79; } }\n'
        % ', '.join(map(str, range(40))),
    ]
    return forms[number % len(forms)]
