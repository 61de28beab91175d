#!/usr/bin/env python3
"""Times `degree` beside eliminations of the same matrix by libraries for algebra.

    bench/degree.py PROGRAM FILE D [KERNEL]

The determining equations are read from the report of `determine`; each says at each monomial one condition on the coefficients of the
components up to degree D, which is a row. It prints the size of the matrix and, in milliseconds, the least user time of three calls: of
`degree`, of `determine`, and of the kernel by sympy, sparse and dense, and by FLINT, where KERNEL is the program that
flint/kernel.c builds.
"""
import itertools
import re
import resource
import subprocess
import sys
import tempfile
import time

from sympy import ZZ
from sympy.polys.matrices import DomainMatrix


def called(words):
    before = resource.getrusage(resource.RUSAGE_CHILDREN).ru_utime
    done = subprocess.run(words, capture_output=True, text=True)
    return done, resource.getrusage(resource.RUSAGE_CHILDREN).ru_utime - before


def least_of_calls(words):
    return min(called(words)[1] for _ in range(3))


def least_of_work(work):
    def once():
        start = time.process_time()
        work()
        return time.process_time() - start
    return min(once() for _ in range(3))


def equations_in(report, names):
    """Each equation as terms: a number, the exponents, the component, the counts of the derivative."""
    for line in report.split('\n'):
        if not line.endswith(' = 0') or line.startswith('general'):
            continue
        terms = []
        for sign, text in re.findall(r'(^|\+ |- |^-)([^ +-]\S*)', line[:-len(' = 0')]):
            number, exponents = -1 if '-' in sign else 1, [0] * len(names)
            *factors, last = text.split('*')
            for factor in factors:
                name, _, exponent = factor.partition('^')
                if name.isdigit():
                    number *= int(name)
                else:
                    exponents[names.index(name)] += int(exponent or 1)
            unknown, _, letters = last.partition('_')
            terms.append((number, exponents, int(unknown[1:]) - 1, [letters.count(name) for name in names]))
        yield terms


def monomials(count, degree):
    return [m for m in itertools.product(range(degree + 1), repeat=count) if sum(m) <= degree]


def rows_of(report, degree):
    lines = report.split('\n')
    names = lines[1].split()[1:] + lines[2].split()[1:]
    columns = [(s, m) for s in range(len(names)) for m in monomials(len(names), degree)]
    rows = []
    for terms in equations_in(report, names):
        said = {}
        for k, (component, monomial) in enumerate(columns):
            for number, exponents, unknown, counts in terms:
                if unknown != component or any(e < c for e, c in zip(monomial, counts)):
                    continue
                value = number
                for e, c in zip(monomial, counts):
                    for factor in range(e - c + 1, e + 1):
                        value *= factor
                at = tuple(e - c + x for e, c, x in zip(monomial, counts, exponents))
                row = said.setdefault(at, {})
                row[k] = row.get(k, 0) + value
        rows += [{k: v for k, v in row.items() if v} for row in said.values()]
    return [row for row in rows if row], len(columns)


def main():
    program, path, degree, *kernel = sys.argv[1:]
    report = called([program, 'degree', path, degree])[0].stdout
    generators = int(re.search(r'^generators (\d+)$', report, re.M).group(1))
    rows, width = rows_of(called([program, 'determine', path])[0].stdout, int(degree))
    print(f'{len(rows)} rows, {width} columns, {sum(map(len, rows))} entries, {generators} generators')
    sparse = DomainMatrix({i: {k: ZZ(v) for k, v in row.items()} for i, row in enumerate(rows)}, (len(rows), width), ZZ)
    dense = sparse.to_dense()
    assert sparse.to_field().nullspace().shape[0] == generators
    times = [
        ('degree', least_of_calls([program, 'degree', path, degree])),
        ('determine', least_of_calls([program, 'determine', path])),
        ('sympy, sparse', least_of_work(lambda: sparse.to_field().nullspace())),
        ('sympy, dense', least_of_work(lambda: dense.nullspace())),
    ]
    if kernel:
        with tempfile.NamedTemporaryFile('w') as file:
            file.write(f'{len(rows)} {width}  ' + ' '.join(str(row.get(k, 0)) for row in rows for k in range(width)))
            file.flush()
            nullity, milliseconds = called([kernel[0], file.name])[0].stdout.split()
        assert int(nullity) == generators
        times.append(('FLINT, dense', float(milliseconds) / 1000))
    for name, seconds in times:
        print(f'{name}: {seconds * 1000:.0f} ms')


if __name__ == '__main__':
    main()
