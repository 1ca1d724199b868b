#!/usr/bin/env python3
"""Changes reports in every small way, and counts what `vouch certify` says of each.

usage: changed_reports.py PROGRAM

For each example, the reports of the run in turn and of three seeds are taken. Of each, every line is left out, every line is doubled,
every two lines change places, and every number is one more, one less, and 0. The verdicts are counted by kind; a changed report that
is still `whole` is printed with what was changed.
"""
import collections
import pathlib
import re
import subprocess
import sys


def run(program, words, text):
    done = subprocess.run([program, *words], input=text.encode(), stdout=subprocess.PIPE, check=False)
    return done.returncode, done.stdout.decode()


def changes(lines):
    for i, line in enumerate(lines):
        yield f'line {i + 1} left out: {line}', lines[:i] + lines[i + 1:]
        yield f'line {i + 1} twice: {line}', lines[:i + 1] + lines[i:]
        for found in re.finditer(r'(?<![0-9a-f-])[0-9]+(?![0-9a-f])', line):
            number = int(found.group())
            for other in sorted({number + 1, max(number - 1, 0), 0} - {number}):
                changed = line[:found.start()] + str(other) + line[found.end():]
                yield f'line {i + 1}: {line} -> {changed}', lines[:i] + [changed] + lines[i + 1:]
        for j in range(i + 1, len(lines)):
            if lines[j] != line:
                swapped = list(lines)
                swapped[i], swapped[j] = swapped[j], swapped[i]
                yield f'lines {i + 1} and {j + 1} change places: {line} | {lines[j]}', swapped


def main():
    program = sys.argv[1]
    examples = pathlib.Path(__file__).resolve().parents[2] / 'examples'
    kinds = collections.Counter()
    for example in sorted(examples.glob('*.vouch')):
        scenario = example.read_text()
        for words in (['play'], ['play', '1'], ['play', '2'], ['play', '3']):
            status, report = run(program, words, scenario)
            assert status == 0, (example, words, status)
            assert run(program, ['certify'], scenario + report) == (0, 'whole\n'), (example, words)
            kinds['unchanged: whole'] += 1
            for what, lines in changes(report.splitlines()):
                status, verdict = run(program, ['certify'], scenario + '\n'.join(lines) + '\n')
                kind = re.sub(r' [0-9]+', '', verdict.strip())
                kinds[kind] += 1
                if kind == 'whole':
                    print(f'{example.name}, {" ".join(words)}: {what}')
    for kind, count in sorted(kinds.items()):
        print(f'{count:6} {kind}')


main()
