"""The planning question at a horizon as QDIMACS: some schedule, for every state, there are the later facts such that the state is no
start, or T(P) holds. Written from document 01; usage: qdimacs.py SHEET HORIZON."""
import struct
import sys


class Sheet:
    def __init__(self, data):
        counts = struct.unpack('<8H', data[-16:])
        self.facts, self.actions, rules, starts, goals, self.horizon = counts[:6]
        words = list(struct.unpack('<%dH' % ((len(data) - 16) // 2), data[:-16]))

        def rows(count, width):
            return [tuple(words.pop(0) for _ in range(width)) for _ in range(count)]
        self.needs, self.rules = rows(self.actions, 2), rows(rules, 5)
        self.starts, self.goals = rows(starts, 2), rows(goals, 2)


def bits(mask):
    return [k for k in range(16) if mask >> k & 1]


class Question:
    def __init__(self, sheet, horizon):
        self.sheet, self.horizon = sheet, horizon
        self.stride = sheet.actions + len(sheet.rules) + sheet.facts
        self.last = sheet.facts + horizon * self.stride
        self.outside = self.new()
        self.clauses = []
        self.steps()
        self.ends()

    def new(self):
        self.last += 1
        return self.last

    def fact(self, moment, k):
        return moment * self.stride + k + 1

    def action(self, step, k):
        return self.sheet.facts + step * self.stride + k + 1

    def fires(self, step, r):
        return self.action(step, 0) + self.sheet.actions + r

    def inside(self, *literals):
        """A clause that is asked only where the state is a start."""
        self.clauses.append(list(literals) + [self.outside])

    def steps(self):
        s = self.sheet
        for i in range(self.horizon):
            for k, (one, zero) in enumerate(s.needs):
                for f in bits(one):
                    self.inside(-self.action(i, k), self.fact(i, f))
                for f in bits(zero):
                    self.inside(-self.action(i, k), -self.fact(i, f))
            for a in range(s.actions):
                for b in range(a):
                    self.clauses.append([-self.action(i, a), -self.action(i, b)])
            for r, (act, cond1, cond0, set1, set0) in enumerate(s.rules):
                z = self.fires(i, r)
                parts = [self.action(i, act - 1)] + [self.fact(i, f) for f in bits(cond1)] + [-self.fact(i, f) for f in bits(cond0)]
                for p in parts:
                    self.inside(-z, p)
                self.inside(z, *[-p for p in parts])
                for f in bits(set1):
                    self.inside(-z, self.fact(i + 1, f))
                for f in bits(set0):
                    self.inside(-z, -self.fact(i + 1, f))
            for f in range(s.facts):
                sets = [self.fires(i, r) for r, rule in enumerate(s.rules) if rule[3] >> f & 1]
                clears = [self.fires(i, r) for r, rule in enumerate(s.rules) if rule[4] >> f & 1]
                self.inside(-self.fact(i, f), self.fact(i + 1, f), *clears)
                self.inside(self.fact(i, f), -self.fact(i + 1, f), *sets)

    def ends(self):
        for pos, neg in self.sheet.goals:
            self.inside(*[self.fact(self.horizon, f) for f in bits(pos)], *[-self.fact(self.horizon, f) for f in bits(neg)])
        # A state is outside only if some start clause is false in it.
        false = [self.new() for _ in self.sheet.starts]
        self.clauses.append([-self.outside] + false)
        for v, (pos, neg) in zip(false, self.sheet.starts):
            for f in bits(pos):
                self.clauses.append([-v, -self.fact(0, f)])
            for f in bits(neg):
                self.clauses.append([-v, self.fact(0, f)])

    def text(self):
        s = self.sheet
        first = [self.action(i, k) for i in range(self.horizon) for k in range(s.actions)]
        every = [self.fact(0, f) for f in range(s.facts)]
        rest = [v for v in range(1, self.last + 1) if v not in set(first) | set(every)]
        lines = ['p cnf %d %d' % (self.last, len(self.clauses))]
        lines += ['%s %s 0' % (q, ' '.join(map(str, vs))) for q, vs in (('e', first), ('a', every), ('e', rest)) if vs]
        lines += [' '.join(map(str, c + [0])) for c in self.clauses]
        return '\n'.join(lines) + '\n'


if __name__ == '__main__':
    with open(sys.argv[1], 'rb') as f:
        sys.stdout.write(Question(Sheet(f.read()), int(sys.argv[2])).text())
