#!/usr/bin/env python3
"""Times `analyse` on files, or on a growing family: for k from 2 to 32 the file with y_xx = the sum over j from 0 to k of
(j+1)*x^j*y^(k-j).

    bench/family.py PROGRAM [FILE...]

It prints a row for each file: the terms of the determining equations, the steps of the run, the least user time of three calls in
milliseconds, and from this the time a step, where the time of `check` with the field 0 is taken off first.
"""
import os
import resource
import subprocess
import sys
import tempfile


def power(name, exponent):
    return [] if exponent == 0 else [name if exponent == 1 else f'{name}^{exponent}']


def equation(k):
    terms = ['*'.join([str(j + 1)] + power('x', j) + power('y', k - j)) for j in range(k + 1)]
    return 'y_xx = ' + ' + '.join(terms)


def call(words):
    """The status, what is printed, and the user time in seconds."""
    before = resource.getrusage(resource.RUSAGE_CHILDREN).ru_utime
    done = subprocess.run(words, capture_output=True, text=True)
    after = resource.getrusage(resource.RUSAGE_CHILDREN).ru_utime
    return done.returncode, done.stdout, after - before


def least(words):
    return min(call(words)[2] for _ in range(3))


def terms(report):
    """How many terms the equations of a report have."""
    lines = [line for line in report.split('\n') if line.endswith(' = 0') and not line.startswith('general')]
    return sum(1 + line.count(' + ') + line.count(' - ') for line in lines)


def steps(program, path):
    """The least budget with which the run ends, which is the number of its steps; 1 also where there is none."""
    def is_spent(budget):
        return call([program, 'analyse', '--steps', str(budget), path])[0] == 6
    high = 1
    while is_spent(high):
        high *= 2
    low = high // 2
    while high - low > 1:
        middle = (low + high) // 2
        low, high = (middle, high) if is_spent(middle) else (low, middle)
    return high


def row(program, name, path):
    status, report, _ = call([program, 'determine', path])
    if status != 0:
        return f'| {name} | status {status} | | | |'
    number = steps(program, path)
    time = least([program, 'analyse', path])
    rest = max(0, time - least([program, 'check', path, '0']))
    return f'| {name} | {terms(report)} | {number} | {1000 * time:.1f} | {1000 * rest / number:.3f} |'


def main():
    program, files = sys.argv[1], sys.argv[2:]
    print('| File | terms | steps | time, ms | time a step, ms |')
    print('|---|---|---|---|---|')
    for path in files:
        name = os.path.basename(path).removesuffix('.lie')
        print(row(program, f'`{name}`', path), flush=True)
    if files:
        return
    with tempfile.TemporaryDirectory() as room:
        path = os.path.join(room, 'file.lie')
        for k in range(2, 33):
            with open(path, 'w') as file:
                file.write(f'lie 1\nvars x\ndeps y\neq {equation(k)}\nend\n')
            print(row(program, f'k = {k}', path), flush=True)


if __name__ == '__main__':
    main()
