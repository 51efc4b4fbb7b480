#!/usr/bin/env python3
"""Deterministic benchmark instances for vsc: trace texts and CNF texts (with
--compact the clause list of docs/FORMATS.md, else an older one with a variable for each
ordered pair).

usage: instances.py [--compact] [--only REGEX] [--no-cnf] [--list] OUTDIR

Writes OUTDIR/NAME.vsc and OUTDIR/NAME.cnf (NAME.y.cnf with --compact) and one
manifest line per instance: name, kept operations, processes, V, C.
Nothing here depends on a solver, on a hash seed or on the version of `random`:
the generator below is a plain 64-bit xorshift.
"""
import argparse, os, re, sys

class Rng:
    def __init__(self, seed):
        self.s = (seed * 0x9E3779B97F4A7C15 + 0xD1B54A32D192ED03) & (2**64 - 1) or 1
        for _ in range(8):
            self.next()
    def next(self):
        x = self.s
        x ^= (x << 13) & (2**64 - 1)
        x ^= x >> 7
        x ^= (x << 17) & (2**64 - 1)
        self.s = x
        return (x * 0x2545F4914F6CDD1D & (2**64 - 1)) >> 11
    def below(self, n):
        return self.next() % n
    def chance(self, per_mille):
        return self.below(1000) < per_mille

# A trace: dict(init={a:d}, final={a:d}, procs=[(name, [op])]); op = ('R',a,d) | ('W',a,d) | ('U',a,d,e)

def leaves(op):
    return op[3] if op[0] == 'U' else op[2]

def reduce_trace(t):
    """Keep list per process (indices from 0 of what the reduction leaves)."""
    out = []
    for name, ops in t['procs']:
        kept = []
        for i, op in enumerate(ops):
            if op[0] == 'R' and i and ops[i-1][1] == op[1] and leaves(ops[i-1]) == op[2]:
                continue
            kept.append(op)
        out.append((name, kept))
    return dict(init=t['init'], final=t['final'], procs=out)

def text(t):
    L = ['vsc 1']
    L += ['init %s %d' % (a, t['init'][a]) for a in sorted(t['init'])]
    L += ['final %s %d' % (a, t['final'][a]) for a in sorted(t['final'])]
    for name, ops in t['procs']:
        L.append('proc ' + name)
        L += [' '.join(map(str, op)) for op in ops]
    return '\n'.join(L) + '\n'

def encode(t, compact=False):
    """CNF text of the reduced trace. Returns (V, [lines])."""
    t = reduce_trace(t)
    ops, nxt = [], []
    for _, l in t['procs']:
        for k, op in enumerate(l):
            ops.append(op)
            nxt.append(k + 1 < len(l))
    n = len(ops)
    if compact:
        def y(i, j):
            return i * (2*n - i - 1) // 2 + (j - i)
        X = [[0 if i == j else (y(i, j) if i < j else -y(j, i)) for j in range(n)] for i in range(n)]
        v = n * (n - 1) // 2
    else:
        X = [[0 if i == j else i * (n-1) + (j + 1 if j < i else j) for j in range(n)] for i in range(n)]
        v = n * (n - 1)
    out = []
    for i in range(n):
        if nxt[i]:
            out.append('%d 0' % X[i][i+1])
    if not compact:
        for i in range(n):
            for j in range(i + 1, n):
                out.append('%d %d 0' % (X[i][j], X[j][i]))
                out.append('-%d -%d 0' % (X[i][j], X[j][i]))
        for i in range(n):
            Xi = X[i]
            for j in range(n):
                if j == i:
                    continue
                Xj, p = X[j], '-%d -' % Xi[j]
                out.extend([p + '%d %d 0' % (Xj[k], Xi[k]) for k in range(n) if k != i and k != j])
    else:
        for i in range(n):
            for j in range(i + 1, n):
                for k in range(j + 1, n):
                    a, b, c = X[i][j], X[j][k], X[i][k]
                    out.append('-%d -%d %d 0' % (a, b, c))
                    out.append('%d %d -%d 0' % (a, b, c))
    writers = {}
    for i, op in enumerate(ops):
        if op[0] != 'R':
            writers.setdefault(op[1], []).append(i)
    for r, op in enumerate(ops):
        if op[0] == 'W':
            continue
        a, d = op[1], op[2]
        ws = writers.get(a, [])
        cand = []
        if t['init'].get(a) == d:
            v += 1
            cand.append((v, None))
        for w in ws:
            if w != r and leaves(ops[w]) == d:
                v += 1
                cand.append((v, w))
        if not cand:
            v += 1
            out.append('%d 0' % v)
            out.append('-%d 0' % v)
            continue
        out.append(' '.join(str(s) for s, _ in cand) + ' 0')
        for s, w in cand:
            if w is None:
                out.extend('-%d %d 0' % (s, X[r][q]) for q in ws if q != r)
            else:
                out.append('-%d %d 0' % (s, X[w][r]))
                out.extend('-%d %d %d 0' % (s, X[q][w], X[r][q]) for q in ws if q != w and q != r)
    for a in sorted(t['final']):
        d, ws = t['final'][a], writers.get(a, [])
        cand = []
        for w in ws:
            if leaves(ops[w]) == d:
                v += 1
                cand.append((v, w))
        if cand:
            out.append(' '.join(str(s) for s, _ in cand) + ' 0')
            for f, w in cand:
                out.extend('-%d %d 0' % (f, X[q][w]) for q in ws if q != w)
        elif not (not ws and t['init'].get(a) == d):
            v += 1
            out.append('%d 0' % v)
            out.append('-%d 0' % v)
    return n, v, out

# ---------------------------------------------------------------- families

def simulate(seed, n, procs, locs, vals, read=500, upd=0, final=True, tso=0):
    """Run `procs` processes on a memory until n operations are kept.
    tso > 0: store buffers of that depth (reads look into their own buffer first,
    a read-and-write empties it); the trace may then violate SC."""
    g = Rng(seed)
    names = ['x%d' % i for i in range(locs)]
    mem = {a: 0 for a in names}
    buf = [[] for _ in range(procs)]
    seqs = [[] for _ in range(procs)]
    kept = [0] * procs
    quota = [n // procs + (1 if p < n % procs else 0) for p in range(procs)]
    sched = []
    def flush(p):
        a, d = buf[p].pop(0)
        mem[a] = d
    while sum(kept) < n:
        p = g.below(procs)
        if buf[p] and (len(buf[p]) >= tso or g.chance(300)):
            flush(p)
            continue
        if kept[p] >= quota[p]:
            continue
        a = names[g.below(locs)]
        if g.chance(read):
            d = next((d for b, d in reversed(buf[p]) if b == a), mem[a])
            op = ('R', a, d)
        elif g.chance(upd):
            while buf[p]:
                flush(p)
            op = ('U', a, mem[a], g.below(vals))
            mem[a] = op[3]
        else:
            op = ('W', a, g.below(vals))
            if tso:
                buf[p].append((a, op[2]))
            else:
                mem[a] = op[2]
        s = seqs[p]
        if not (op[0] == 'R' and s and s[-1][1] == a and leaves(s[-1]) == op[2]):
            kept[p] += 1
        s.append(op)
        sched.append((p, len(s)))
    for p in range(procs):
        while buf[p]:
            flush(p)
    t = dict(init={a: 0 for a in names}, final=dict(mem) if final else {},
             procs=[('P%d' % p, s) for p, s in enumerate(seqs)])
    t['schedule'] = ['P%d.%d' % q for q in sched] if not tso else None
    return t

def judge_trace(seed, total, procs, locs, vals):
    """A recorded run of exactly `total` operations (nothing about the reduction), with
    its schedule: for `vsc judge`."""
    g = Rng(seed)
    names = ['loc_%d' % i for i in range(locs)]
    mem = {a: 0 for a in names}
    seqs = [[] for _ in range(procs)]
    sched = []
    for _ in range(total):
        p = g.below(procs)
        a = names[g.below(locs)]
        k = g.below(10)
        if k < 5:
            op = ('R', a, mem[a])
        elif k < 9:
            op = ('W', a, g.below(vals))
        else:
            op = ('U', a, mem[a], g.below(vals))
        mem[a] = leaves(op)
        seqs[p].append(op)
        sched.append('P%d.%d' % (p, len(seqs[p])))
    return dict(init={a: 0 for a in names}, final=dict(mem),
                procs=[('P%d' % p, s) for p, s in enumerate(seqs)], schedule=sched)

def rnd(seed, n, procs, locs, vals, read, upd):
    """Random operations, no run behind them (near the point where half are consistent)."""
    g = Rng(seed)
    names = ['x%d' % i for i in range(locs)]
    seqs = [[] for _ in range(procs)]
    for k in range(n):
        s = seqs[k % procs]
        while True:
            a = names[g.below(locs)]
            if g.chance(read):
                op = ('R', a, g.below(vals))
            elif g.chance(upd):
                op = ('U', a, g.below(vals), g.below(vals))
            else:
                op = ('W', a, g.below(vals))
            if not (op[0] == 'R' and s and s[-1][1] == a and leaves(s[-1]) == op[2]):
                break
        s.append(op)
    return dict(init={a: 0 for a in names}, final={}, procs=[('P%d' % p, s) for p, s in enumerate(seqs)])

def mutate(t, seed, vals):
    """One read (that the reducer keeps) gets another value."""
    g = Rng(seed)
    while True:
        p = g.below(len(t['procs']))
        ops = t['procs'][p][1]
        if not ops:
            continue
        k = g.below(len(ops))
        op = ops[k]
        if op[0] != 'R':
            continue
        d = g.below(vals)
        if d == op[2]:
            continue
        before = sum(len(l) for _, l in reduce_trace(t)['procs'])
        ops[k] = ('R', op[1], d)
        if sum(len(l) for _, l in reduce_trace(t)['procs']) == before:
            t['schedule'] = None
            return t
        ops[k] = op

def sb_chain(k):
    """k SB's, one behind the other, in the same two processes, all values 1."""
    P, Q, init = [], [], {}
    for i in range(k):
        x, y = 'x%d' % i, 'y%d' % i
        init[x] = init[y] = 0
        P += [('W', x, 1), ('R', y, 0)]
        Q += [('W', y, 1), ('R', x, 0)]
    return dict(init=init, final={}, procs=[('P', P), ('Q', Q)])

def sb_shared(k):
    """k SB's in 2k processes over the SAME two locations: k writers of x 1 read
    y 0 and k writers of y 1 read x 0."""
    ps = []
    for i in range(k):
        ps.append(('P%d' % i, [('W', 'x', 1), ('R', 'y', 0)]))
        ps.append(('Q%d' % i, [('W', 'y', 1), ('R', 'x', 0)]))
    return dict(init={'x': 0, 'y': 0}, final={}, procs=ps)

def sb_blur(k, resets):
    """sb_shared with `resets` processes that write 0 again: one is enough to make it
    consistent (a consistent near miss of the family above)."""
    t = sb_shared(k)
    for i in range(resets):
        t['procs'].append(('Z%d' % i, [('W', 'x' if i % 2 == 0 else 'y', 0)]))
    return t

def sb_ring(p):
    return dict(init={'x%d' % i: 0 for i in range(p)}, final={},
                procs=[('P%d' % i, [('W', 'x%d' % i, 1), ('R', 'x%d' % ((i+1) % p), 0)]) for i in range(p)])

def iriw(w, readers):
    """w writers; each reader reads the locations in a rotation, first 1, all others 0."""
    ps = [('W%d' % i, [('W', 'x%d' % i, 1)]) for i in range(w)]
    for r in range(readers):
        ps.append(('R%d' % r, [('R', 'x%d' % ((r + k) % w), 1 if k == 0 else 0) for k in range(w)]))
    return dict(init={'x%d' % i: 0 for i in range(w)}, final={}, procs=ps)

def php(up, down):
    """`up` processes U x 0 1 and `down` processes U x 1 0: inconsistent where
    up > down + 1 - the pigeonhole principle, through the choice variables."""
    ps = [('A%d' % i, [('U', 'x', 0, 1)]) for i in range(up)]
    ps += [('B%d' % i, [('U', 'x', 1, 0)]) for i in range(down)]
    return dict(init={'x': 0}, final={}, procs=ps)

def lock(procs, rounds, broken):
    """A spin lock: acquire U l 0 1, one counted write, release W l 0. With
    `broken` the last `broken` releases of distinct processes are missing."""
    ps = []
    for p in range(procs):
        ops = []
        for r in range(rounds):
            ops.append(('U', 'l', 0, 1))
            ops.append(('W', 'l', 0))
        if p < broken:
            ops.pop()
        ps.append(('P%d' % p, ops))
    return dict(init={'l': 0}, final={}, procs=ps)

def counter(procs, rounds, top):
    """fetch-and-add modulo `top` by `procs` processes, recorded round robin with a
    lost update at the end (the last operation reads a stale value)."""
    seqs = [[] for _ in range(procs)]
    v = 0
    order = [(r, p) for r in range(rounds) for p in range(procs)]
    for r, p in order:
        seqs[p].append(('U', 'c', v, (v + 1) % top))
        v = (v + 1) % top
    a = seqs[-1][-1]
    seqs[-1][-1] = ('U', 'c', (a[2] - 1) % top, a[2])
    return dict(init={'c': 0}, final={}, procs=[('P%d' % p, s) for p, s in enumerate(seqs)])

def writes(a, b):
    return dict(init={}, final={}, procs=[('P', [('W', 'x', 1)] * a), ('Q', [('W', 'x', 1)] * b)])

def registry():
    R = {}
    # (a) consistent, recorded: sc-N-Pp-Ll-Vv-sSEED
    for n in (16, 32, 48, 64):
        for p, l, v, rd, up in ((2, 1, 2, 500, 0), (2, 2, 2, 500, 0), (4, 1, 2, 500, 0), (4, 2, 2, 500, 0),
                                (8, 1, 2, 500, 0), (8, 2, 2, 600, 0), (8, 2, 3, 600, 300), (8, 4, 2, 700, 0)):
            for s in (1, 2):
                R['sc-%d-p%d-l%d-v%d%s-s%d' % (n, p, l, v, 'u' if up else '', s)] = \
                    (lambda n=n, p=p, l=l, v=v, rd=rd, up=up, s=s: simulate(s, n, p, l, v, rd, up))
    for p, l, v, rd, up in ((4, 2, 2, 500, 0), (8, 1, 2, 500, 0), (8, 2, 3, 600, 300), (8, 4, 4, 600, 0)):
        R['big-160-p%d-l%d-v%d%s-s1' % (p, l, v, 'u' if up else '')] = \
            (lambda p=p, l=l, v=v, rd=rd, up=up: simulate(1, 160, p, l, v, rd, up))
        R['big-112-p%d-l%d-v%d%s-s1' % (p, l, v, 'u' if up else '')] = \
            (lambda p=p, l=l, v=v, rd=rd, up=up: simulate(1, 112, p, l, v, rd, up))
    # (b) one read changed: mostly inconsistent
    for n in (32, 48, 64):
        for p, l, v in ((4, 2, 2), (8, 1, 2), (8, 1, 3), (8, 2, 3), (8, 4, 2), (4, 4, 4), (16, 1, 4), (16, 2, 4)):
            for s in (1, 2, 3):
                R['mut-%d-p%d-l%d-v%d-s%d' % (n, p, l, v, s)] = \
                    (lambda n=n, p=p, l=l, v=v, s=s: mutate(simulate(100 + s, n, p, l, v, 500, 0), s, v))
    for p, l, v in ((8, 2, 3), (8, 4, 4)):
        R['mut-160-p%d-l%d-v%d-s1' % (p, l, v)] = \
            (lambda p=p, l=l, v=v: mutate(simulate(101, 160, p, l, v, 500, 0), 1, v))
    # (b) TSO runs
    for n in (32, 64):
        for p, l, v in ((2, 2, 2), (4, 2, 2), (4, 4, 2), (4, 4, 4), (8, 2, 3), (8, 4, 2), (8, 8, 2)):
            for s in (1, 2, 3):
                R['tso-%d-p%d-l%d-v%d-s%d' % (n, p, l, v, s)] = \
                    (lambda n=n, p=p, l=l, v=v, s=s: simulate(200 + s, n, p, l, v, 500, 0, True, 3))
    # (b) litmus families
    for k in (1, 4, 8, 16):
        R['sbchain-%d' % k] = lambda k=k: sb_chain(k)
        R['sbshared-%d' % k] = lambda k=k: sb_shared(k)
    for k, z in ((2, 1), (3, 2), (4, 1), (4, 3), (4, 4), (6, 2), (6, 6), (8, 2), (8, 4), (8, 8), (15, 2), (12, 16), (12, 8)):
        R['sbblur-%d-%d' % (k, z)] = lambda k=k, z=z: sb_blur(k, z)
    for p in (2, 4, 8, 16, 32):
        R['sbring-%d' % p] = lambda p=p: sb_ring(p)
    for w, r in ((2, 2), (3, 3), (4, 4), (4, 8), (5, 5), (7, 7), (7, 8), (2, 31)):
        R['iriw-%d-%d' % (w, r)] = lambda w=w, r=r: iriw(w, r)
    # (b) counting: pigeonholes and broken locks
    for u in range(4, 13):
        R['php-%d-%d' % (u, u - 2)] = lambda u=u: php(u, u - 2)
    R['php-33-31'] = lambda: php(33, 31)
    for p, r, b in ((2, 2, 2), (2, 4, 2), (4, 2, 2), (4, 3, 2), (3, 4, 2), (8, 1, 2), (10, 1, 2), (5, 3, 2),
                    (4, 4, 2), (8, 2, 2), (8, 4, 2), (2, 16, 2), (4, 8, 2), (4, 8, 1), (8, 4, 1), (2, 16, 1)):
        R['lock-%d-%d-%d' % (p, r, b)] = lambda p=p, r=r, b=b: lock(p, r, b)
    for p, r, m in ((4, 4, 4), (4, 8, 8), (8, 8, 8), (8, 8, 64), (4, 16, 3)):
        R['ctr-%d-%d-%d' % (p, r, m)] = lambda p=p, r=r, m=m: counter(p, r, m)
    # updates only: recorded (consistent) and random (mostly inconsistent, counting)
    for n, p, v in ((32, 8, 3), (48, 8, 3), (64, 8, 2), (64, 8, 4), (64, 16, 4)):
        for s in (1, 2, 3, 4):
            R['recu-%d-p%d-v%d-s%d' % (n, p, v, s)] = lambda n=n, p=p, v=v, s=s: simulate(s, n, p, 1, v, 0, 1000, False)
    for n, p, v in ((16, 8, 2), (20, 8, 2), (24, 8, 2), (32, 8, 2), (32, 4, 3), (64, 4, 4), (64, 8, 6)):
        for s in (1, 2, 3, 4):
            R['rndu-%d-p%d-v%d-s%d' % (n, p, v, s)] = lambda n=n, p=p, v=v, s=s: rnd(s, n, p, 1, v, 0, 1000)
    # reads and writes at random, about half of them consistent
    for n, p, l, v, rd in ((64, 8, 1, 8, 500), (64, 8, 2, 4, 500), (64, 4, 2, 2, 600), (64, 8, 1, 3, 700),
                           (160, 8, 1, 8, 500), (160, 4, 1, 4, 500), (160, 8, 1, 3, 700)):
        for s in (1, 2, 3, 4):
            R['rndrw-%d-p%d-l%d-v%d-s%d' % (n, p, l, v, s)] = lambda n=n, p=p, l=l, v=v, rd=rd, s=s: rnd(s, n, p, l, v, rd, 0)
    # for `vsc judge` only
    R['judge-4096-p8-l16'] = lambda: judge_trace(1, 4096, 8, 16, 100)
    R['judge-4096-p64-l64'] = lambda: judge_trace(2, 4096, 64, 64, 2**63)
    R['judge-4096-p2-l1'] = lambda: judge_trace(3, 4096, 2, 1, 2)
    # writes of one location by two processes
    R['writes-32-32'] = lambda: writes(32, 32)
    R['writes-80-80'] = lambda: writes(80, 80)
    return R

def main():
    ap = argparse.ArgumentParser()
    ap.add_argument('--compact', action='store_true')
    ap.add_argument('--only', default='')
    ap.add_argument('--no-cnf', action='store_true')
    ap.add_argument('--list', action='store_true')
    ap.add_argument('outdir', nargs='?')
    a = ap.parse_args()
    R = registry()
    for name in R:
        if not re.search(a.only, name):
            continue
        t = R[name]()
        n = sum(len(l) for _, l in reduce_trace(t)['procs'])
        total = sum(len(l) for _, l in t['procs'])
        if a.list or not a.outdir:
            print(name, 'ops', total, 'kept', n, 'procs', len(t['procs']))
            continue
        if not a.no_cnf and n > (160 if a.compact else 64):
            if not name.startswith('judge') or a.compact:
                continue
        os.makedirs(a.outdir, exist_ok=True)
        with open(os.path.join(a.outdir, name + '.vsc'), 'w') as f:
            f.write(text(t))
        if t.get('schedule') is not None:
            with open(os.path.join(a.outdir, name + '.sched'), 'w') as f:
                f.write('\n'.join(t['schedule']) + '\n')
        if a.no_cnf or name.startswith('judge'):
            print(name, 'ops', total, 'kept', n)
            continue
        n, v, lines = encode(t, a.compact)
        with open(os.path.join(a.outdir, name + ('.y.cnf' if a.compact else '.cnf')), 'w') as f:
            f.write('p cnf %d %d\n' % (v, len(lines)))
            if lines:
                f.write('\n'.join(lines) + '\n')
        print(name, 'kept', n, 'procs', len(t['procs']), 'V', v, 'C', len(lines))
        sys.stdout.flush()

if __name__ == '__main__':
    main()
