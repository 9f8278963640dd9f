#!/usr/bin/env python3
# Makes stdin and stdout of this program:  make-stdin.py ROUTER VECTORS
# ROUTER is the program of the second router; VECTORS is its folder of jobs. That router was written apart from this code, from the
# documents and the readings in docs/DECISIONS.md, and runs at the level of bench/level (bench/cases.sh says what that is).
# stdin has those jobs, jobs that ROUTER generates, and the texts below, each ended by byte 255. stdout has what ROUTER says of each:
# its refusal, or (accepted) where it prints a layout. Nothing of stdout comes from the code in this repository. The family damaged2 uses the
# forms that the level knows, so stdin changes with it.
import glob, os, subprocess, sys

HEAD = '(board\n(rows 10)\n(tracks 2)\n'
NET = '(net 1 2 4 7 7)\n'
FORMS = ['(board\n', '(rows 10)\n', '(tracks 2)\n', NET, '(block 2 6 6)\n', ')\n']
EXAMPLE = HEAD + NET + '(net 2 6 8 11 12)\n(net 3 9 10 6 8)\n(net 4 3 2 6 6)\n(net 5 5 6 6 6)\n(block 2 6 6)\n)\n'

def job(*lines):
    return HEAD + ''.join(l + '\n' for l in lines) + ')\n'

def nets(n):
    return ''.join('(net %d %d %d 0 4095)\n' % (i + 1, 2 * i + 1, 2 * i + 2) for i in range(n))

def large(n, last):
    return '(board\n(rows 1024)\n(tracks 128)\n' + nets(n) + last + ')\n'

def texts():
    # lines, spaces and the end of a text
    yield ''
    for t in [' ', '     ', '\n', '\n\n\n', ' \n', '\t', '\t\n', '\r\n', '\0', '(', ')', '()\n', '(board', '(board\n', '(board)\n', '((board\n']:
        yield t
    yield EXAMPLE
    yield EXAMPLE[:-1]
    yield EXAMPLE + '   \n\n'
    yield EXAMPLE + '   '
    for t in [')\n', '(\n', 'x', '\t\n', '(board\n', NET]:
        yield EXAMPLE + t
    yield '\n\n' + EXAMPLE.replace('\n', '\n \n')
    for t in ['\r\n', '\t\n', '\n\t', '\n\0', ' \f\n', '\n\n', '\n   \n']:
        yield EXAMPLE.replace('\n', t)
    for a, b in [(' ', '\t'), (' ', '   '), ('(', ' ( '), (')', ' ) '), ('10', '00010'), ('10', '000010'), ('10', '99999'), ('10', '+10'), ('10', '1O'),
                 ('net', 'Net'), ('net', 'nets'), ('net', 'ne'), ('block', 'blocks'), ('rows', 'row'), ('tracks', 'track'), ('(board', 'board'), ('(net 1 ', '(net1 '),
                 ('2)', '2 )'), ('2)', '2'), ('2)', '2))'), ('2)', '2)('), ('(rows', '((rows'), (' 7)', ')'), (' 7)', ' 7 7)'), (' 7)', ' -7)'), (' 7)', ' 7,)'), (' 7)', ' \u00a07)')]:
        yield EXAMPLE.replace(a, b)
    for k in range(len(EXAMPLE)):
        if EXAMPLE[k] in '\n)':
            yield EXAMPLE[:k]
    for t in ['(board (rows 10)\n(tracks 2)\n)\n', '(board\n(rows 10) (tracks 2)\n)\n', '(board\n(rows 10)\n(tracks 2))\n', '(board\n(rows 10)\n(tracks 2) )\n', '(board\n(rows\n10)\n(tracks 2)\n)\n']:
        yield t
    # forms out of their place: each one behind each start, and behind the whole
    for k in range(len(FORMS) + 1):
        for f in FORMS:
            yield ''.join(FORMS[:k]) + f
    # ends of the ranges
    for h in [0, 1, 2, 1024, 1025]:
        yield '(board\n(rows %d)\n(tracks 1)\n)\n' % h
        yield '(board\n(rows %d)\n' % h
    for k in [0, 1, 128, 129]:
        yield '(board\n(rows 1)\n(tracks %d)\n)\n' % k
    for i in [0, 1, 9999, 10000, 99999]:
        yield job('(net %d 2 4 7 7)' % i)
    for r in [0, 1, 10, 11]:
        yield job('(net 1 %d 5 0 4095)' % r)
        yield job('(net 1 5 %d 0 4095)' % r)
        yield job('(block 1 %d 10)' % r)
        yield job('(block 1 1 %d)' % r)
    for m in [0, 6, 7, 8, 9, 10, 4095, 4096]:
        yield job('(net 1 2 4 %d 4095)' % m)
        yield job('(net 1 2 4 0 %d)' % m)
        yield job('(net 1 2 4 %d %d)' % (m, m))
    for t, a, b in [(0, 1, 1), (1, 1, 1), (2, 1, 10), (3, 1, 1), (1, 5, 4), (1, 10, 10)]:
        yield job('(block %d %d %d)' % (t, a, b))
    # two faults and more on a net line: numbers 3, 5, 6, 7, 8 and 9, each with each
    for number in [0, 3, 4]:
        for left, right in [(2, 5), (3, 5), (3, 4), (5, 5), (0, 5), (2, 4), (2, 2)]:
            for low, high in [(0, 4095), (0, 5), (9, 8), (60, 61), (60, 60), (4096, 1)]:
                yield job('(net 3 2 4 7 7)', '(net %d %d %d %d %d)' % (number, left, right, low, high))
    # a row used on the one side only, an equal number, a number below one before the last
    for l in ['(net 2 4 2 7 7)', '(net 2 2 6 9 9)', '(net 2 6 4 7 7)', '(net 1 6 8 7 7)', '(block 1 2 4)']:
        yield job('(net 1 2 4 7 7)', l)
    yield job('(net 5 2 4 7 7)', '(block 1 1 1)', '(net 3 6 8 7 7)')
    yield job('(net 5 2 4 7 7)', '(net 6 6 8 7 7)', '(net 5 1 3 7 7)')
    # weights: the ends of the range, digits, a seventh number; a weight on other forms
    for w in ['0', '00000', '1', '00001', '9', '99', '999', '0999', '00999', '000999', '1000', '01000', '1010', '9999', '99999', '100000', '999999',
              '7 7', '7 0', '0 7', '7 7 7', '-1', '+7', '7.5', '7,', '7x', 'x', '()', '(7)', '7 ', ' 7', '\t7']:
        yield job('(net 1 2 4 7 7 %s)' % w)
    for l in ['(net 1 2 4 7 7) 7', '(net 1 2 4 7 7 7', '7 (net 1 2 4 7 7)', '(net 1 2 4 7 7)7', '(net 1 2 4 7)', '( net  1 2  4 7 7  07 )', '(block 1 2 4 7)']:
        yield job(l)
    yield '(board\n(rows 10 7)\n(tracks 2)\n)\n'
    yield '(board\n(rows 10)\n(tracks 2 7)\n)\n'
    # a weight left out is the needed rows, which may be above the range of a written one
    for rows in [999, 1000, 1010, 1024]:
        for w in ['', ' 999', ' 1000', ' %d' % rows]:
            yield '(board\n(rows 1024)\n(tracks 1)\n(net 1 1 %d 0 4095%s)\n)\n' % (rows, w)
    # a weight on a line with a fault of number 5, 6, 7, 8 or 9, or with several
    for w in [0, 1, 999, 1000, 99999]:
        for l in ['3 1 5 0 4095', '4 2 5 0 4095', '4 1 4 0 4095', '4 5 5 0 4095', '4 1 5 0 8', '4 1 5 60 61', '3 2 2 60 1', '4 0 5 0 4095', '4 1 5 0 4096']:
            yield job('(net 3 2 4 7 7)', '(net %s %d)' % (l, w))
    # the first faulty line counts, not the smallest number
    yield job('(net 1 2 2 7 7 7)', '(net 2 2 4 7 7 0)')
    yield job('(net 1 2 4 7 7 1000)', '(net 2 5 5 7 7 7)', '(nonsense)')
    yield job('(net 1 2 2 7 7)', '(net 2 0 4 7 7)', '(nonsense)')
    yield '(board\n(rows 0)\n(tracks'
    # 512 nets and 256 blocks, and one more of each, which may be faulty too
    yield large(512, '')
    for n in ['(net 513 1 2 0 4095)', '(net 9999 1023 1023 0 4095)', '(net 513 0 2 0 4095)', '(net 1 1 2 0 1)', '(net 513 1 2 0 5000)', '(net 513)']:
        yield large(512, n + '\n')
    for w in [999, 1000, '7 7']:
        yield large(512, '(net 513 1 2 0 4095 %s)\n' % w)
    yield large(511, '(net 512 1023 1 0 4095)\n')
    blocks = '(block 1 1 1)\n' * 256
    yield HEAD + blocks + ')\n'
    for b in ['(block 2 1 1)', '(block 3 1 1)', '(block 1 2 1)', '(net 1 2 4 7 7)']:
        yield HEAD + blocks + b + '\n)\n'
    # the length
    for n in [64000, 64001]:
        yield EXAMPLE + ' ' * (n - len(EXAMPLE))
    yield '\n' * 64000

def main(router, vectors):
    folder = os.path.dirname(os.path.abspath(__file__))
    with open(os.path.join(folder, '../../bench/level')) as level:
        os.environ['LEVEL'] = level.read().strip()
    made = [t.encode() for t in texts()]
    kept = [open(f, 'rb').read() for f in sorted(glob.glob(os.path.join(vectors, '*-*.job')))]
    for family, seeds in [('damaged', range(1000, 1080)), ('spacing', range(1000, 1040)), ('edge', range(1000, 1040)), ('words', range(1000, 1010)),
                          ('weights', range(1000, 1010)), ('damaged2', range(1000, 1080))]:
        for seed in seeds:
            t = subprocess.run([router, 'gen', str(seed), family], stdout=subprocess.PIPE, check=True).stdout
            if len(t) < 20000: kept.append(t)
    seen = set()
    with open(os.path.join(folder, 'stdin'), 'wb') as given, open(os.path.join(folder, 'stdout'), 'wb') as answers:
        for t in kept + made:
            if t in seen or b'\xff' in t: continue
            seen.add(t)
            r = subprocess.run([router, 'route'], input=t, stdout=subprocess.PIPE, check=True).stdout
            given.write(t + b'\xff')
            answers.write(r if r.startswith(b'(refused ') else b'(accepted)\n')

main(sys.argv[1], sys.argv[2])
