"""Data for the models of this folder, and checks of what they print. The data comes from a generator of its own, so it is the
same with every Python; a check knows the data and what was printed, and nothing of the model.
"""
import ast
import math
import re

WORD = (1 << 64) - 1


class Draws:
    """Numbers that look drawn: splitmix64."""

    def __init__(self, seed):
        self.state = seed

    def below(self, n):
        self.state = self.state + 0x9e3779b97f4a7c15 & WORD
        z = self.state
        z = (z ^ z >> 30) * 0xbf58476d1ce4e5b9 & WORD
        z = (z ^ z >> 27) * 0x94d049bb133111eb & WORD
        return (z ^ z >> 31) * n >> 64

    def within(self, low, high):
        return low + self.below(high - low + 1)

    def of(self, some):
        return some[self.below(len(some))]

    def mixed(self, some):
        some = list(some)
        for k in range(len(some) - 1, 0, -1):
            j = self.below(k + 1)
            some[k], some[j] = some[j], some[k]
        return some


def way(a, b):
    return math.isqrt((a[0] - b[0]) ** 2 + (a[1] - b[1]) ** 2)


# ---- data: a list of rows behind the number of steps

def flow_shop(draws, n, machines):
    return [[n, machines]] + [[draws.within(1, 99) for _ in range(machines)] for _ in range(n)]


def tour(draws, n):
    places = [(draws.below(1001), draws.below(1001)) for _ in range(n)]
    return [[n]] + [[way(a, b) for b in places] for a in places]


def coloring(draws, n, colors, percent):
    """A graph that these colors suffice for; the percentage is of the pairs whose hidden colors differ."""
    hidden = [draws.below(colors) for _ in range(n)]
    edges = [[i + 1, j + 1] for i in range(n) for j in range(i) if hidden[i] != hidden[j] and draws.below(100) < percent]
    return [[n, colors, len(edges)]] + edges


def nurses(draws, n, days, wishes):
    need = [[n * draws.within(20, 26) // 100, n * draws.within(20, 26) // 100, max(1, n * 13 // 100)] for _ in range(days)]
    wish = [[draws.within(1, n), draws.within(1, days), draws.below(4), draws.within(1, 3)] for _ in range(wishes)]
    return [[n, days]] + need + [[wishes]] + wish


def cars(draws, n, classes):
    """The cars of a line that overruns no station, so there is one."""
    most, window, percent = [1, 2, 1, 2, 1], [2, 3, 3, 5, 5], [40, 50, 25, 30, 15]
    kinds = []
    while len(kinds) < classes:
        kind = tuple(int(draws.below(100) < p) for p in percent)
        if kind not in kinds:
            kinds.append(kind)
    if tuple([0] * 5) not in kinds:
        kinds[0] = tuple([0] * 5)
    line = []
    for _ in range(n):
        fits = [c for c in range(classes)
                if all(sum(kinds[d][q] for d in line[max(0, len(line) - window[q] + 1):]) + kinds[c][q] <= most[q]
                       for q in range(5))]
        line.append(draws.of(sorted(fits, key=lambda c: -sum(kinds[c]))[:4]))
    return [[n, 5, classes], most, window] + [[line.count(c)] + list(kinds[c]) for c in range(classes)]


def bin_packing(draws, bins):
    """Three items for each bin, which fill it but for a fiftieth."""
    size = []
    for _ in range(bins):
        a, b = draws.within(25, 70), draws.within(20, 45)
        size += [a, b, 147 - a - b]
    return [[len(size), bins, 150], draws.mixed(size), [draws.within(1, 9) for _ in size]]


def timetable(draws, n, slots, rooms):
    seats = [30 + 170 * r // (rooms - 1) for r in range(rooms)]
    lecture = [[draws.within(1, n // 5), draws.of([20, 25, 45, 70, 100, 150])] for _ in range(n)]
    pairs = set()
    for _ in range(n * 2 // 5):
        group = draws.mixed(range(1, n + 1))[:draws.within(3, 6)]
        pairs.update((a, b) for a in group for b in group if a < b)
    never = [[draws.within(1, n), draws.within(1, slots)] for _ in range(n)]
    return [[n, slots, rooms], seats] + lecture + [[len(pairs)]] + sorted(map(list, pairs)) + [[len(never)]] + never


def warehouse(draws, sites, customers):
    where = [(draws.below(1001), draws.below(1001)) for _ in range(sites)]
    who = [((draws.below(1001), draws.below(1001)), draws.within(1, 10)) for _ in range(customers)]
    return [[sites, customers], [draws.within(2500, 6000) for _ in range(sites)]] + [
        [much * way(place, site) for site in where] for place, much in who]


# ---- checks: what was printed at the key `best` is worked out anew; None where it is the same

class Data:
    def __init__(self, text):
        self.numbers = iter(map(int, text.split()))
        self.one()   # the steps

    def one(self):
        return next(self.numbers)

    def some(self, n):
        return [self.one() for _ in range(n)]

    def rows(self, n, m):
        return [self.some(m) for _ in range(n)]


def check_flow_shop(data, said):
    n, machines = data.some(2)
    time = data.rows(n, machines)
    end = [0] * machines
    for j in said['order']:
        for q in range(machines):
            end[q] = max(end[q], end[q - 1] if q else 0) + time[j - 1][q]
    return sorted(said['order']) == list(range(1, n + 1)), [end[-1]]


def check_tour(data, said):
    n = data.one()
    dist = data.rows(n, n)
    tour = said['tour']
    return sorted(tour) == list(range(1, n + 1)), [sum(dist[a - 1][b - 1] for a, b in zip(tour, tour[1:] + tour[:1]))]


def check_coloring(data, said):
    n, k, e = data.some(3)
    color = said['colors']
    return len(color) == n and all(1 <= c <= k for c in color), [sum(color[a - 1] == color[b - 1] for a, b in data.rows(e, 2))]


def check_nurses(data, said):
    n, days = data.some(2)
    need = data.rows(days, 3)
    wish = data.rows(data.one(), 4)
    x, hard = said['roster'], 0
    for t in range(days):
        for s, wanted in enumerate([n - sum(need[t])] + need[t]):
            hard += 2 * abs(wanted - sum(row[t] == s for row in x))
    for row in x:
        for t in range(days - 6):
            hard += max(0, sum(s > 0 for s in row[t:t + 7]) - 5) + max(0, sum(s == 3 for s in row[t:t + 7]) - 3)
        hard += sum(pair in ((3, 1), (3, 2), (2, 1)) for pair in zip(row, row[1:]))
    return all(s in range(4) for row in x for s in row), [hard, sum(w for i, t, s, w in wish if x[i - 1][t - 1] != s)]


def check_cars(data, said):
    n, options, classes = data.some(3)
    most, window = data.some(options), data.some(options)
    row = data.rows(classes, options + 1)
    line = said['line']
    over = sum(max(0, sum(row[c - 1][q + 1] for c in line[i:i + window[q]]) - most[q])
               for q in range(options) for i in range(n - window[q] + 1))
    return [line.count(c + 1) for c in range(classes)] == [r[0] for r in row], [over]


def check_bin_packing(data, said):
    n, bins, capacity = data.some(3)
    size, worth = data.some(n), data.some(n)
    load = [sum(s for s, b in zip(size, said['bins']) if b == k) for k in range(1, bins + 1)]
    opened = sum(k > 0 for k in load)
    return load == said['loads'], [sum(max(0, k - capacity) for k in load),
                                   100 * sum(w for w, b in zip(worth, said['bins']) if b == 0) + opened, opened]


def check_timetable(data, said):
    n, slots, rooms = data.some(3)
    seats, lecture = data.some(rooms), data.rows(n, 2)
    slot, room = said['slots'], said['rooms']
    wrong = sum(slot[a - 1] == slot[b - 1] for a, b in data.rows(data.one(), 2))
    wrong += 2 * sum(slot[a] == slot[b] and lecture[a][0] == lecture[b][0] for a in range(n) for b in range(a))
    wrong += 2 * (n - len(set(zip(slot, room))))
    wrong += sum(slot[a - 1] == t for a, t in data.rows(data.one(), 2))
    wrong += sum(seats[r - 1] < students for r, (_, students) in zip(room, lecture))
    return all(1 <= t <= slots for t in slot) and all(1 <= r <= rooms for r in room), [wrong]


def check_warehouse(data, said):
    sites, customers = data.some(2)
    fixed, cost = data.some(sites), data.rows(customers, sites)
    service = [min(row[s - 1] for s in said['open']) for row in cost]
    return service == said['service'], [sum(fixed[s - 1] for s in said['open']) + sum(service)]


def check(name, data, printed):
    """What was wrong with what was printed, or nothing."""
    said = {}
    for line in printed.splitlines():
        key, _, rest = line.partition(' ')
        said[key] = ast.literal_eval(rest) if rest[:1] in ('[', '{') else [int(k) for k in re.findall(r'-?\d+', rest)]
    fits, best = globals()['check_' + name](Data(data), said)
    if 'wrong' in said or not fits:
        return 'no solution'
    return None if best == said['best'] else 'best %s, counted %s' % (said['best'], best)


# ---- the models: by size the steps and the numbers for the data; what is asked, with a number `u` that counts up

class Model:
    def __init__(self, best, delta, commit, value, share, **sizes):
        self.best, self.sizes = best, sizes
        self.asked = {'delta': delta, 'commit': commit, 'value': value, 'share': share}

    def data(self, name, size, seed=1):
        steps, numbers = self.sizes[size][0], self.sizes[size][1:]
        rows = [[steps]] + globals()[name](Draws(seed), *numbers)
        return '\n'.join(' '.join(map(str, row)) for row in rows) + '\n'


MODELS = {
    'flow_shop': Model(
        'length',
        'acc += length.getSwapDelta(job[1 + u % n], job[1 + (u + 3) % n]);',
        'job[1 + u % n] :=: job[1 + (u + 3) % n];',
        'acc += length.value();', None,
        tiny=(5, 6, 3), usual=(200, 20, 5), large=(3, 100, 10)),
    'tour': Model(
        'length',
        'acc += length.getSwapDelta(city[1 + u % n], city[1 + (u + 3) % n]);',
        'city[1 + u % n] :=: city[1 + (u + 3) % n];',
        'acc += length.value();', None,
        tiny=(5, 8), usual=(200, 60), large=(30, 120)),
    'coloring': Model(
        'conflicts',
        'acc += S.getAssignDelta(color[1 + u % n], 1 + u % k);',
        'color[1 + u % n] := 1 + (u + u / n) % k;',
        'acc += S.violations();', 'acc += S.violations(color[1 + u % n]);',
        tiny=(5, 15, 3, 20), usual=(2000, 125, 5, 12), large=(20, 250, 30, 50)),
    'nurses': Model(
        'violations, refused',
        'acc += H.getAssignDelta(x[1 + u % n, 1 + u % days], u % 4);',
        'x[1 + u % n, 1 + u / n % days] := (u + u / (n * days)) % 4;',
        'acc += H.violations();', 'acc += H.violations(x[1 + u % n, 1 + u % days]);',
        tiny=(3, 5, 7, 5), usual=(400, 15, 14, 40), large=(300, 40, 28, 200)),
    'cars': Model(
        'too many',
        'acc += S.getSwapDelta(line[1 + u % n], line[1 + (u + 7) % n]);',
        'line[1 + u % n] :=: line[1 + (u + 7) % n];',
        'acc += S.violations();', 'acc += S.violations(line[1 + u % n]);',
        tiny=(5, 12, 6), usual=(500, 60, 12), large=(2000, 200, 18)),
    'bin_packing': Model(
        'too much, lost, open',
        'acc += lost.getAssignDelta(bin[1 + u % n], u % (bins + 1));',
        'bin[1 + u % n] := (u + u / n) % (bins + 1);',
        'acc += lost.value();', None,
        tiny=(5, 3), usual=(150, 20), large=(20, 40)),
    'timetable': Model(
        'violations',
        'acc += S.getAssignDelta(slot[1 + u % n], 1 + u % slots);',
        'slot[1 + u % n] := 1 + (u + u / n) % slots;',
        'acc += S.violations();', 'acc += S.violations(slot[1 + u % n]);',
        tiny=(5, 10, 5, 3), usual=(500, 60, 20, 5), large=(2000, 200, 40, 8)),
    'warehouse': Model(
        'cost',
        'acc += total.getAssignDelta(open[1 + u % sites], u / sites % 2);',
        'open[1 + u % sites] := u / sites % 2;',
        'acc += total.value();', None,
        tiny=(5, 4, 6), usual=(100, 25, 50), large=(10, 50, 100)),
}
