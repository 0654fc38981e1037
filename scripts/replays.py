#!/usr/bin/env python3
"""Plays the stored logs with the replay program and fails on any difference: bin/replays runs it.

    python3 scripts/replays.py PROGRAM [ORACLE]

The expected text is the original's, samples/NAME.lines. That of a log that is cut short follows
from it: the lines of the whole records, and 33 for the one that is cut. With ORACLE, the original's
program, the phases that scripts/explain.py prints are held to the original's too.
"""
import glob
import os
import re
import select
import signal
import subprocess
import sys
import time

import explain

HEAD = b'replay 1\n'
# Every place of a log up to this size is cut; of a larger one a few places of each record.
SMALL = 1000
# A program that has not ended or answered after so many seconds hangs.
PATIENCE = 20
# Logs from a seed, for the phases.
SEEDS = 60


class Difference(Exception):
    """What was asked, what was expected, and what came."""


def end_of(value):
    """The last part of a long text, and anything else as it is."""
    return value[-400:] if isinstance(value, (bytes, str)) else value


def held(asked, expected, given):
    if expected != given:
        raise Difference(f'{asked}\n  expected: {end_of(expected)!r}\n  given:    {end_of(given)!r}')


def stored():
    """The logs with their lines, by name."""
    for name in sorted(glob.glob('samples/*.log')):
        with open(name, 'rb') as log, open(name[:-4] + '.lines', 'rb') as lines:
            yield os.path.basename(name)[:-4], log.read(), lines.read()


def played(program, log):
    """What the program prints of a log that it gets through a pipe."""
    run = subprocess.run([program], input=log, stdout=subprocess.PIPE, stderr=subprocess.PIPE, timeout=PATIENCE, check=False)
    held('standard error, exit', (b'', 0), (run.stderr, run.returncode))
    return run.stdout


def from_files(program, logs):
    for name, _, lines in logs:
        with open(f'samples/{name}.log', 'rb') as log:
            run = subprocess.run([program], stdin=log, stdout=subprocess.PIPE, timeout=PATIENCE, check=False)
        held(name, lines, run.stdout)
        held(name + ', exit', 0, run.returncode)
    return f'{len(logs)} logs'


def after_cut(log, lines, size):
    """The text of the first so many bytes of a log: the lines of the whole records, then 33 for a
    record that is cut."""
    count, at = 0, 0
    for _, body, _ in explain.records(log):
        end = at + 4 + len(body) if body is not None else len(log)
        if size < end or body is None:
            break
        count, at = count + 1, end
    kept = lines.splitlines(keepends=True)[:1 + count]
    if at == size:
        return b''.join(kept)
    rest = log[at:size]
    shown = rest[:2] if rest[:2] in explain.MARKS else b'??'
    revision = kept[-1].split()[3] if count else b'0'
    return b''.join(kept) + b'%d %s 33 %s\n' % (count + 1, shown, revision)


def places(log):
    """Where a log is cut: everywhere if it is small, else in the head, the middle and the end of
    each record."""
    if len(log) <= SMALL:
        return range(len(log) + 1)
    some, at = [], 0
    for _, body, _ in explain.records(log):
        size = 4 + len(body or b'')
        some += [at + more for more in (0, 1, 2, 3, 4, 5, size // 2, size - 1) if more < size]
        at += size
    return some + [len(log)]


def cut_everywhere(program, logs):
    cuts = {log[:size]: after_cut(log, lines, size) for _, log, lines in logs for size in places(log)}
    for log, lines in cuts.items():
        held(f'log {log.hex()}', lines, played(program, log))
    return f'{len(cuts)} logs'


def read_line(stream):
    """The next line, which must come without more input."""
    line, until = b'', time.monotonic() + PATIENCE
    while not line.endswith(b'\n'):
        ready, _, _ = select.select([stream], [], [], max(0, until - time.monotonic()))
        byte = os.read(stream.fileno(), 1) if ready else b''
        if not byte:
            raise Difference(f'the line of a record does not come before the next record: {line!r}')
        line += byte
    return line


def by_hand(program, logs):
    """A log byte by byte: each line comes as soon as its record is whole."""
    for name, log, lines in logs:
        run = subprocess.Popen([program], stdin=subprocess.PIPE, stdout=subprocess.PIPE, bufsize=0)
        expected = lines.splitlines(keepends=True)
        held(name, expected[0], read_line(run.stdout))
        at, number = 0, 0
        for _, body, _ in explain.records(log):
            if body is None:
                break
            for byte in log[at:at + 4 + len(body)]:
                run.stdin.write(bytes([byte]))
            at, number = at + 4 + len(body), number + 1
            held(name, expected[number], read_line(run.stdout))
        # An unknown mark ends the program, which need not read what comes after it.
        rest, _ = run.communicate(log[at:], timeout=PATIENCE)
        held(name, b''.join(expected[number + 1:]), rest)
        held(name + ', exit', 0, run.returncode)
    return f'{len(logs)} logs'


def manual(program, logs):
    """The examples of docs/REPLAY.md: a block `hex`, with comments after #, and its block
    `lines`."""
    with open('docs/REPLAY.md', encoding='utf-8') as page:
        examples = re.findall(r'^```hex\n(.*?)^```\n\n```lines\n(.*?)^```$', page.read(), re.M | re.S)
    texts = [(bytes.fromhex(re.sub('#.*', '', digits)), lines.encode()) for digits, lines in examples]
    for log, lines in texts:
        held('an example of docs/REPLAY.md', lines, played(program, log))
    worked = next(log for name, log, _ in logs if name == 'worked-example')
    held('the first example of docs/REPLAY.md', worked, texts[0][0])
    return f'{len(texts)} examples'


def long_logs(program, logs):
    """Logs longer than any buffer: records of the largest size with and without a table, and very
    many small ones."""
    table = next(log for name, log, _ in logs if name == 'worked-example')
    table = table[:4 + int.from_bytes(table[2:4], 'big')]
    large, small = b'TB\xff\xff' + bytes(65535), b'MK\0\0'
    for record, mark, without, count in ((large, 'TB', 6, 40), (small, 'MK', 33, 200000)):
        log = record * count + table + record * count
        lines = [f'{number} {mark} {without} 0' for number in range(1, count + 1)] + [f'{count + 1} TB 0 1']
        lines += [f'{number} {mark} 33 1' for number in range(count + 2, 2 * count + 2)]
        held(f'{count} records {mark}', HEAD + '\n'.join(lines).encode() + b'\n', played(program, log))
    return '400082 records'


def closed_output(program, ignored):
    """Records without end into a program whose output nobody reads: it ends, and says nothing."""
    def prepare():
        signal.signal(signal.SIGPIPE, signal.SIG_IGN if ignored else signal.SIG_DFL)
    run = subprocess.Popen([program], stdin=subprocess.PIPE, stdout=subprocess.PIPE, stderr=subprocess.PIPE, preexec_fn=prepare)
    run.stdout.close()
    until = time.monotonic() + PATIENCE
    try:
        while time.monotonic() < until:
            run.stdin.write(b'MK\0\0' * 1000)
            run.stdin.flush()
        run.kill()
        raise Difference('the program goes on with its output closed')
    except BrokenPipeError:
        pass
    held('closed output', b'', run.stderr.read())
    if run.wait(PATIENCE) not in (0, 1, -signal.SIGPIPE):
        raise Difference(f'closed output: exit {run.returncode}')


def full_output(program, log):
    with open('/dev/full', 'wb') as full:
        run = subprocess.run([program], input=log, stdout=full, stderr=subprocess.PIPE, timeout=PATIENCE, check=False)
    if run.returncode < 0 or not run.stderr.startswith(b'replay: standard output: '):
        raise Difference(f'output that cannot be written: exit {run.returncode}, {run.stderr!r}')


def unread_input(program, log):
    """Input that is closed, that is no file of bytes, or that fails within a record: the lines of
    what was read whole, and a message."""
    for input_ in ('<&-', '</'):
        run = subprocess.run(['sh', '-c', f'exec "$0" {input_}', program], stdout=subprocess.PIPE, stderr=subprocess.PIPE, timeout=PATIENCE, check=False)
        failed_reading(f'input {input_}', run, HEAD)
    # A pipe that does not block fails to be read where it is empty and open.
    end, start = os.pipe()
    os.set_blocking(end, False)
    os.write(start, log[:-1])
    run = subprocess.run([program], stdin=end, stdout=subprocess.PIPE, stderr=subprocess.PIPE, timeout=PATIENCE, check=False)
    os.close(end)
    os.close(start)
    failed_reading('a read that fails within a record', run, HEAD + b'1 TB 0 1\n2 MK 25 1\n')


def failed_reading(asked, run, lines):
    held(asked, lines, run.stdout)
    if run.returncode < 0 or run.stderr.count(b'\n') != 1:
        raise Difference(f'{asked}: exit {run.returncode}, and on standard error {run.stderr!r}')


def ends(program, logs):
    closed_output(program, False)
    closed_output(program, True)
    if os.path.exists('/dev/full'):
        full_output(program, max((log for _, log, _ in logs), key=len))
    unread_input(program, next(log for name, log, _ in logs if name == 'worked-example'))
    return 'output closed, output full, input closed, input not readable'


def phases(program, oracle, logs):
    """What scripts/explain.py says of phases, against the original's, on the stored logs and on
    some from a seed."""
    def asked(words, log=b''):
        return subprocess.run([oracle, *words], input=log, stdout=subprocess.PIPE, check=True).stdout
    fresh = [(f'seed {seed}', asked(['generate', str(seed), '120', 'log'])) for seed in range(1000, 1000 + SEEDS)]
    every = [(name, log) for name, log, _ in logs] + fresh
    for name, log in every:
        held('phases of ' + name, asked(['phases'], log), explain.phases(program, log).encode())
    return f'{len(every)} logs'


def main(program, oracle=None):
    logs = list(stored())
    named = [(name, log, lines) for name, log, lines in logs if not name.startswith('log-')]
    if not named:
        raise Difference('no named logs in samples/')
    parts = [
        ('from files', lambda: from_files(program, logs)),
        ('cut short, through a pipe', lambda: cut_everywhere(program, named)),
        ('byte by byte, each line awaited', lambda: by_hand(program, named)),
        ('examples of the manual', lambda: manual(program, logs)),
        ('longer than any buffer', lambda: long_logs(program, logs)),
        ('ends', lambda: ends(program, logs)),
    ]
    if oracle:
        parts.append(('phases as explained', lambda: phases(program, oracle, logs)))
    for name, part in parts:
        print(f'replays: {name}: {part()}, no difference', flush=True)


if __name__ == '__main__':
    try:
        main(*sys.argv[1:])
    except Difference as difference:
        print(f'replays: DIFFERENCE: {difference}', file=sys.stderr)
        sys.exit(1)
    except subprocess.TimeoutExpired as late:
        print(f'replays: the program hangs: {late}', file=sys.stderr)
        sys.exit(1)
