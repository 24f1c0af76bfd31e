#!/usr/bin/env python3
"""Runs the fuzzer for long and writes what it did into docs/SAFETY.md.   record.py [COUNT [SEED]]

COUNT cases (2900000, some 12 million calls) and the SEED of the chance (18), as tests/fuzz/run takes them. What is written stands between the
two marks of the page: commit, module, machine, cases, calls by answer. The crates must be as they are committed.
"""
import hashlib
import pathlib
import platform
import re
import resource
import subprocess
import sys
import time

ROOT = pathlib.Path(__file__).resolve().parent.parent.parent
PAGE = ROOT / 'docs/SAFETY.md'
FROM, TO = '<!-- from here on tests/fuzz/record.py writes -->\n', '<!-- up to here -->\n'
ANSWERS = range(17)


def git(*words):
    return subprocess.run(['git', *words], cwd=ROOT, check=True, stdout=subprocess.PIPE, text=True).stdout.strip()


def calls_of(said):
    """How often each call was made, by answer."""
    found = {}
    for name, answers in re.findall(r'^fuzz: (gw_\w+) \d+ calls; by answer(.*)$', said, re.M):
        found[name] = {int(answer): int(count) for answer, count in re.findall(r'(\d+): (\d+)', answers)}
    total = int(re.search(r'^fuzz: (\d+) calls$', said, re.M).group(1))
    assert len(found) == 7 and sum(sum(counts.values()) for counts in found.values()) == total, said
    return found


def row(name, counts):
    return f'| {name} | {sum(counts.values()):,} | ' + ' | '.join(f'{counts[a]:,}' if a in counts else '' for a in ANSWERS) + ' |\n'


def table(found):
    every = {}
    for counts in found.values():
        for answer, count in counts.items():
            every[answer] = every.get(answer, 0) + count
    head = '| Call | calls | ' + ' | '.join(map(str, ANSWERS)) + ' |\n|' + '---|' * (2 + len(ANSWERS)) + '\n'
    return head + ''.join(row(f'`{name}`', counts) for name, counts in found.items()) + row('all', every)


def reached(said):
    """Places of the library that were reached, as the driver counts them."""
    guided, plain = re.search(r'DONE +cov: (\d+)', said), re.search(r'; (\d+) of (\d+) places', said)
    return f'{int(guided.group(1)):,} places' if guided else f'{int(plain.group(1)):,} of {int(plain.group(2)):,} places'


def main(count='2900000', seed='18'):
    changed = git('status', '--porcelain', 'crates', 'crates.txt')
    if changed:
        sys.exit(f'record: the crates are not as they are committed:\n{changed}')
    before, began = resource.getrusage(resource.RUSAGE_CHILDREN).ru_utime, time.strftime('%Y-%m-%d')
    done = subprocess.run(['bash', 'tests/fuzz/run', count, seed], cwd=ROOT, stdout=subprocess.PIPE, text=True, check=False)
    print(done.stdout, end='')
    if done.returncode:
        sys.exit(done.returncode)
    found, said = calls_of(done.stdout), done.stdout
    total = sum(sum(counts.values()) for counts in found.values())
    module = hashlib.sha256((ROOT / 'build/gateway.module').read_bytes()).hexdigest()[:16]
    driver = 'libFuzzer of ' + re.search(r'libFuzzer of (.*), the module', said).group(1) if 'libFuzzer of' in said else 'cc with `tests/fuzz/plain.c`'
    seconds = resource.getrusage(resource.RUSAGE_CHILDREN).ru_utime - before
    text = (f'{began}, on {platform.machine()}, commit `{git("rev-parse", "--short", "HEAD")}`, module `{module}..` (sha256), {driver}: '
            f'`tests/fuzz/run {count} {seed}`,\n{int(count):,} cases, **{total:,} calls** in {seconds:,.0f} seconds of processor time. Nothing was found. '
            f'Reached: {reached(said)}. Calls by answer:\n\n{table(found)}')
    page = PAGE.read_text()
    start, end = page.index(FROM) + len(FROM), page.index(TO)
    PAGE.write_text(page[:start] + text + page[end:])
    if total < 10_000_000:
        print(f'record: {total:,} calls are fewer than ten million', file=sys.stderr)


main(*sys.argv[1:])
