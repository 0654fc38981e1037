#!/usr/bin/env python3
"""Measures how the cost of a call grows with the slots and the names of a table, and that of a
replay with its log: bin/growth runs it.

    python3 scripts/growth.py count SUPPORT BYTES LIBRARY...
        instructions of each call, under valgrind's callgrind (about a minute)
    python3 scripts/growth.py time SUPPORT BYTES LIBRARY...
        nanoseconds of each call, all subjects in one run (under a minute)
    python3 scripts/growth.py logs PROGRAM
        seconds and memory on logs of 10^3 to 10^7 records (about five minutes)
    python3 scripts/growth.py profile
        the functions in which the instructions counted last were spent
    python3 scripts/growth.py draw
        docs/growth-*.svg, and the tables of docs/GROWTH.md

Run it from the root of the repository, after the oracle was built. What is measured is kept in
target/growth. An instruction count includes the C library's copies, made by vectors (see
scripts/count.py), and does not depend on what else the machine does.
"""
import collections
import glob
import os
import re
import statistics
import subprocess
import sys
import tempfile

import plot
from count import COPIES

ORACLE = 'oracle/target/release/oracle'
OUT = 'target/growth'
PAGE = 'docs/GROWTH.md'

# Title, call and state of the oracle's lines.
CALLS = (('read, idle', 'read', 'idle'), ('read, open request', 'read', 'open'),
         ('write, idle', 'write', 'idle'), ('write, open request', 'write', 'open'),
         ('validate, idle', 'validity', 'idle'), ('validate, open request', 'validity', 'open'),
         ('Begin', 'Begin', 'idle'), ('Advance: fence', 'Advance fence', 'open'),
         ('Advance: finalize', 'Advance finalize', 'open'), ('observation: joint', 'observation joint', 'open'),
         ('observation: idle', 'observation idle', 'idle'), ('retired test', 'retired test', 'idle'), ('retired test, open request', 'retired test', 'open'))
ORIGINAL, ENTRY, THIN = 'original', 'port, entry point', 'port, thin call'
SUBJECTS = {'original': ORIGINAL, 'bytes': ENTRY, 'entry_thin': ENTRY, 'thin': THIN}

# The columns of the table of times.
RATIOS = (('slots', 1), ('slots', 3), ('slots', 9), ('names', 10), ('names', 160), ('names', 640), ('names', 2048))

# The kinds of `oracle bench-log`: records of 68 bytes that change nothing, and whole replacements.
LOGS = (('markers', 'markers'), ('replacements-3', 'replacements'))
RUNS = {10 ** 3: 15, 10 ** 4: 15, 10 ** 5: 7, 10 ** 6: 3, 10 ** 7: 1}


def say(words):
    print(words, file=sys.stderr, flush=True)


def put(name, rows):
    os.makedirs(OUT, exist_ok=True)
    with open(os.path.join(OUT, name), 'w', encoding='utf-8') as file:
        for row in rows:
            print(*row, sep='\t', file=file)


def got(name):
    try:
        with open(os.path.join(OUT, name), encoding='utf-8') as file:
            return [line.rstrip('\n').split('\t') for line in file]
    except FileNotFoundError:
        sys.exit(f'{OUT}/{name} is not there; run bin/growth first')


def lines_of(words, what, **more):
    """The lines that a program prints, with progress on the way."""
    rows = []
    with subprocess.Popen(words, stdout=subprocess.PIPE, text=True, **more) as run:
        for line in run.stdout:
            rows.append(line.rstrip('\n').split('\t'))
            if len(rows) % 50 == 0:
                say(f'{len(rows)} calls {what}')
    if run.returncode:
        sys.exit(f'{words[0]}: exit {run.returncode}')
    return rows


def counted(path):
    """The instructions of one call: all of them, and for each function its own."""
    spent = collections.Counter()
    function, total, passed = None, None, False
    with open(path, encoding='utf-8') as file:
        for line in file:
            if line.startswith('fn='):
                function = line[3:].rstrip('\n')
            elif line.startswith('calls='):
                passed = True
            elif line.startswith('totals:'):
                total = int(line.split()[1])
            elif line[0].isdigit():
                # The line after `calls=` has what the callee spent.
                if not passed:
                    spent[function] += int(line.split()[1])
                passed = False
    return total, spent


def count(libraries):
    with tempfile.TemporaryDirectory() as folder:
        out = os.path.join(folder, 'out')
        words = ['valgrind', '-q', '--tool=callgrind', '--compress-strings=no', '--compress-pos=no', '--toggle-collect=counted_call',
                 '--dump-after=counted_call', '--callgrind-out-file=' + out, ORACLE, 'once-growth']
        labels = lines_of(words + libraries, 'counted', env=dict(os.environ, GLIBC_TUNABLES=COPIES))
        files = sorted(glob.glob(out + '.*'), key=lambda name: int(name.rsplit('.', 1)[1]))[:len(labels)]
        calls = [counted(path) for path in files]
    if len(calls) != len(labels) or any(total != sum(spent.values()) or not total for total, spent in calls):
        sys.exit(f'{len(calls)} calls were counted, of {len(labels)}, or the parts of one do not add up')
    put('instructions.tsv', [label + [total] for label, (total, _) in zip(labels, calls)])
    put('functions.tsv', [label + [own, function] for label, (_, spent) in zip(labels, calls) for function, own in spent.most_common()])


def profile():
    """For each call on three slots with names of 40 bytes, the functions that took most."""
    spent = collections.defaultdict(list)
    for varied, call, state, slots, _, subject, own, function in got('functions.tsv'):
        if varied == 'slots' and slots == '3' and subject != 'original':
            spent[f'{call}, {state}: {subject}'].append((int(own), function))
    for label, parts in spent.items():
        total = sum(own for own, _ in parts)
        print(f'{label}: {total} instructions')
        for own, function in parts[:6]:
            print(f'    {100 * own / total:5.1f} percent  {own:7}  {function}')


def played(words, kind, records, **more):
    """A program that plays a log, which comes through a pipe and is not stored."""
    with subprocess.Popen([ORACLE, 'bench-log', kind, str(records)], stdout=subprocess.PIPE) as log:
        run = subprocess.Popen(words, stdin=log.stdout, **more)
        log.stdout.close()
        said = run.stdout.read() if run.stdout else None
        _, status, usage = os.wait4(run.pid, 0)
        run.returncode = os.waitstatus_to_exitcode(status)
    if run.returncode or log.returncode:
        sys.exit(f'{words[0]}: exit {run.returncode}, the log {log.returncode}')
    return usage.ru_utime + usage.ru_stime, said


def memory(words, kind, records):
    """The most memory in use, in KB, and the last line."""
    with tempfile.NamedTemporaryFile('r') as file:
        shell = ['bash', '-o', 'pipefail', '-c', '/usr/bin/time -f %M -o "$0" "$@" | tail -n 1', file.name]
        _, last = played(shell + words, kind, records, stdout=subprocess.PIPE, text=True)
        return int(file.read()), last


def logs(program):
    rows = []
    for kind, _ in LOGS:
        for records, runs in RUNS.items():
            programs = {'port': [program], 'original': [ORACLE, 'replay']}
            taken = {name: [] for name in programs}
            for _ in range(runs):
                for name, words in programs.items():
                    taken[name].append(played(words, kind, records, stdout=subprocess.DEVNULL)[0])
            most = {name: memory(words, kind, records) for name, words in programs.items()}
            if most['port'][1] != most['original'][1]:
                sys.exit(f'{kind}, {records} records: the last lines differ, {most}')
            for name in programs:
                rows.append((kind, records, name, f'{statistics.median(taken[name]):.6f}', most[name][0]))
                say(' '.join(map(str, rows[-1])))
    put('logs.tsv', rows)


def shown(rows):
    """For each call and subject of the page the values, by what is varied."""
    values = {}
    for varied, call, state, slots, name, subject, value in rows:
        subject = ENTRY if (call, subject) == ('retired test', 'entry') else SUBJECTS.get(subject)
        # The retired test takes the same with an open request; of the slots it is shown without.
        if subject and (varied, call, state) != ('slots', 'retired test', 'open'):
            at = int(slots if varied == 'slots' else name)
            values.setdefault((varied, call, state), {}).setdefault(subject, {})[at] = float(value)
    return values


def panels(values, varied, x, y):
    """A panel for each call; `y` makes its scale from the least and the most."""
    out = []
    for title, call, state in CALLS:
        series = values.get((varied, call, state))
        if series:
            all_values = [value for points in series.values() for value in points.values()]
            lines = {name: sorted(points.items()) for name, points in series.items()}
            out.append(plot.Panel(title, x, y('instructions', min(all_values), max(all_values)), lines))
    return out


def table(head, rows):
    return '\n'.join('| ' + ' | '.join(row) + ' |' for row in [head, ['---'] * len(head)] + rows)


def instructions_table(values, varied, points):
    rows = []
    for title, call, state in CALLS:
        series = values.get((varied, call, state), {})
        for subject in (ORIGINAL, ENTRY, THIN):
            if subject in series:
                rows.append([title, subject] + [f'{series[subject][at]:,.0f}' if at in series[subject] else '' for at in points])
                title = ''
    return table(['call', ''] + [f'{at:,}' for at in points], rows)


def ratios_table(values):
    """Times of the port over those of the original, by slots and by names."""
    rows = []
    for title, call, state in CALLS:
        for subject in (ENTRY, THIN):
            cells = []
            for varied, at in RATIOS:
                series = values.get((varied, call, state), {})
                known = at in series.get(subject, {})
                cells.append(f'{float(f"{series[subject][at] / series[ORIGINAL][at]:.2g}"):g}' if known else '')
            if any(cells):
                rows.append([title, subject] + cells)
                title = ''
    return table(['call', ''] + [f'{varied}: {at:,}' for varied, at in RATIOS], rows)


def logs_table(rows):
    by = {(kind, int(records), name): (float(seconds), int(most)) for kind, records, name, seconds, most in rows}
    out = []
    for kind, title in LOGS:
        for records in RUNS:
            cells = [title, f'{records:,}']
            for name in ('port', 'original'):
                seconds, most = by[kind, records, name]
                cells += [f'{seconds:.3g}', f'{float(f"{records / seconds:.3g}"):,.0f}', f'{most:,}']
            out.append(cells)
            title = ''
    return table(['log', 'records', 'port: seconds', 'records a second', 'most memory, KB', 'original: seconds', 'records a second', 'most memory, KB'], out)


def seconds_shown(value):
    return f'{value:g} s' if value >= 1 else f'{1e3 * value:g} ms'


def kilobytes_shown(value):
    return f'{value / 1e6:g} GB' if value >= 1e6 else f'{value / 1e3:g} MB'


def logs_panels(rows):
    """A panel for the time and one for the memory."""
    time, most = {}, {}
    titles = dict(LOGS)
    for kind, records, name, seconds, kilobytes in rows:
        line = f'{name}, {titles[kind]}'
        time.setdefault(line, []).append((float(records), float(seconds)))
        most.setdefault(line, []).append((float(records), float(kilobytes)))
    x = plot.powers('records in the log', min(RUNS), max(RUNS), plot.thousands)
    return [plot.Panel('processor time, user and system', x, plot.powers('time', 1e-3, 1e2, seconds_shown), time),
            plot.Panel('most memory in use', x, plot.powers('memory', 1e3, 1e7, kilobytes_shown), most)]


def write(path, words):
    with open(path, 'w', encoding='utf-8') as file:
        file.write(words)
    say(f'{path} is written')


def draw():
    values, times, log_rows = shown(got('instructions.tsv')), shown(got('times.tsv')), got('logs.tsv')
    points = {varied: sorted({at for (what, _, _), series in values.items() if what == varied for by in series.values() for at in by}) for varied in ('slots', 'names')}
    names = [ORIGINAL, ENTRY, THIN]
    slots = plot.Scale('slots', points['slots'], plot.thousands, low=0)
    by_slots = panels(values, 'slots', slots, lambda label, _, most: plot.from_zero(label, most))
    write('docs/growth-slots.svg', plot.picture('Instructions of a call, by the slots of the table', names, by_slots, 4))
    lengths = plot.Scale('bytes of a name', [10, 100, 1000], lambda value: f'{value:,}', low=8, high=2560, log=True)
    by_names = panels(values, 'names', lengths, lambda label, least, most: plot.powers(label, least, most, plot.thousands))
    write('docs/growth-names.svg', plot.picture('Instructions of a call, by the length of the names', names, by_names, 4))
    lines = ['original, markers', 'port, markers', 'port, replacements', 'original, replacements']
    write('docs/growth-logs.svg', plot.picture('A replay, by the length of its log', lines, logs_panels(log_rows), 2, 500, 320))
    tables = {'slots': instructions_table(values, 'slots', points['slots']), 'names': instructions_table(values, 'names', points['names']),
              'times': ratios_table(times), 'logs': logs_table(log_rows)}
    with open(PAGE, encoding='utf-8') as file:
        page = file.read()
    for name, words in tables.items():
        page, found = re.subn(rf'(<!-- table: {name} -->\n).*?(<!-- end -->)', lambda at, words=words: f'{at[1]}{words}\n{at[2]}', page, flags=re.S)
        if found != 1:
            sys.exit(f'{PAGE} has no place for the table: {name}')
    write(PAGE, page)


def main(words):
    match words:
        case ['count', _, _, _, *_]:
            count(words[1:])
        case ['time', _, _, _, *_]:
            put('times.tsv', lines_of([ORACLE, 'bench-growth'] + words[1:], 'timed'))
        case ['logs', program]:
            logs(program)
        case ['profile']:
            profile()
        case ['draw']:
            draw()
        case _:
            sys.exit(__doc__)


main(sys.argv[1:])
