#!/usr/bin/env python3
"""Prints the Kleine Büning formula of a size t as a script of calls on a docket: its refutation by long-distance resolution.

The prefix is  e d0 d1 e1  a x1  e d2 e2  a x2 .. e dt et  a xt  e f1 .. ft,  and the rows are
  K0: -d0    K1: d0 -d1 -e1    K2j: dj -xj -d(j+1) -e(j+1)    K2j+1: ej xj -d(j+1) -e(j+1)    for j = 1 .. t-1
  K2t: dt -xt -f1 .. -ft       K2t+1: et xt -f1 .. -ft        B2j-1: xj fj    B2j: -xj fj       for j = 1 .. t
The rows are the leaves. From the innermost block outwards each K row is resolved on its f, its d and its e with what came before, so
that the variables x of the blocks inside become stars; at last stars alone are left, and a reduce takes them off. Every answer follows
from this order: step numbers rise by one, and the last step is the verdict. There are 4t+2 leaves, 6t-1 resolves and one reduce.

Usage: tools/kleine_buening.py T [NAME]
"""
import sys


def script(t, name):
    d = lambda j: 1 if j == 0 else 3 * j - 1
    e = lambda j: 3 * j
    x = lambda j: 3 * j + 1
    f = lambda j: 3 * t + 1 + j
    n = 4 * t + 1
    blocks = ['e %d %d %d 0' % (d(0), d(1), e(1)), 'a %d 0' % x(1)]
    for j in range(2, t + 1):
        blocks += ['e %d %d 0' % (d(j), e(j)), 'a %d 0' % x(j)]
    blocks.append('e %s 0' % ' '.join(str(f(j)) for j in range(1, t + 1)))
    k = [[-d(0)], [d(0), -d(1), -e(1)]]
    for j in range(1, t):
        k.append([d(j), -x(j), -d(j + 1), -e(j + 1)])
        k.append([e(j), x(j), -d(j + 1), -e(j + 1)])
    fs = [-f(j) for j in range(1, t + 1)]
    k += [[d(t), -x(t)] + fs, [e(t), x(t)] + fs]
    b = []
    for j in range(1, t + 1):
        b += [[x(j), f(j)], [-x(j), f(j)]]
    rows = [sorted(row, key=abs) for row in k + b]
    matrix = ' '.join(' '.join(map(str, row)) + ' 0' for row in rows)
    lines = ['%s a %d 4096 16384 p cnf %d %d %s %s' % (name, n, n, len(rows), ' '.join(blocks), matrix)]
    step = 0

    def call(text):
        nonlocal step
        step += 1
        lines.append('%s = %d' % (text, step))
        return step

    leaves = [call('leaf ' + ' '.join(map(str, row))) for row in rows]
    K = leaves[:2 * t + 2]
    B = [None] + leaves[2 * t + 2:]
    resolve = lambda pivot, first, second: call('resolve %d %d %d' % (pivot, first, second))
    D = resolve(f(t), B[2 * t], K[2 * t])
    E = resolve(f(t), B[2 * t - 1], K[2 * t + 1])
    for j in range(t - 1, 0, -1):
        inner = [resolve(e(j + 1), E, resolve(d(j + 1), D, K[2 * j + i])) for i in (0, 1)]
        D = resolve(f(j), B[2 * j], inner[0])
        E = resolve(f(j), B[2 * j - 1], inner[1])
    last = resolve(d(0), resolve(e(1), E, resolve(d(1), D, K[1])), K[0])
    call('reduce %d' % last)
    assert step == 10 * t + 2
    lines.append('close = %d' % step)
    return '\n'.join(lines)


if __name__ == '__main__':
    size = int(sys.argv[1])
    print(script(size, sys.argv[2] if len(sys.argv) > 2 else 'kleine_buening_%d' % size))
