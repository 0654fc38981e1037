#!/usr/bin/env python3
"""Times the replay program next to the original on the same logs, and shows its memory on a long
one: bin/bench-replay runs it.

    python3 scripts/bench_replay.py PROGRAM ORACLE [RUNS]

The programs run in turns, from a file into /dev/null. Rates are by the median of the user time; the
last column has the ratio by user and system time too. The log of a gigabyte comes through a pipe
and is not stored.
"""
import os
import statistics
import subprocess
import sys
import tempfile

# Records of each log: about half a second of the original's time.
LOGS = (('replacements-3', 240000), ('replacements-9', 160000), ('advances', 400000),
        ('markers', 1000000), ('observations', 400000), ('tables', 20000))
GIGABYTE = 1 << 30


def times(words, log):
    """User seconds, and user and system seconds, of one run."""
    with open(log, 'rb') as file, open(os.devnull, 'wb') as null:
        run = subprocess.Popen(words, stdin=file, stdout=null)
        _, status, usage = os.wait4(run.pid, 0)
        run.returncode = os.waitstatus_to_exitcode(status)
    if run.returncode != 0:
        raise SystemExit(f'bench-replay: {words[0]}: exit {run.returncode}')
    # A short run may have no tick of user time.
    return max(usage.ru_utime, 1e-3), usage.ru_utime + usage.ru_stime


def medians(programs, log, runs):
    """For each program the medians of both times, the programs in turns."""
    taken = [[] for _ in programs]
    for _ in range(runs):
        for words, seconds in zip(programs, taken):
            seconds.append(times(words, log))
    return [tuple(statistics.median(column) for column in zip(*seconds)) for seconds in taken]


def speed(program, oracle, runs):
    print('log               records     MB |   ms  records/s     MB/s | original: ms  records/s     MB/s | rate / original: user, user and system')
    for kind, count in LOGS:
        with tempfile.NamedTemporaryFile() as file:
            subprocess.run([oracle, 'bench-log', kind, str(count)], stdout=file, check=True)
            size = os.path.getsize(file.name) / 1e6
            (ours, all_ours), (theirs, all_theirs) = medians([[program], [oracle, 'replay']], file.name, runs)
        print(f'{kind:15} {count + 1:9} {size:6.1f} | {1e3 * ours:4.0f} {count / ours:10.0f} {size / ours:8.0f} |'
              f' {1e3 * theirs:12.0f} {count / theirs:10.0f} {size / theirs:8.0f} | {theirs / ours:.2f}, {all_theirs / all_ours:.2f}', flush=True)


def most_memory(pid):
    """The most memory that the process has had in use, in KB."""
    with open(f'/proc/{pid}/status', encoding='ascii') as status:
        return next(int(line.split()[1]) for line in status if line.startswith('VmHWM:'))


def memory(program, oracle):
    """A gigabyte of markers and largest tables, and the most memory in use on the way."""
    def made(kind, count):
        return subprocess.run([oracle, 'bench-log', kind, str(count)], stdout=subprocess.PIPE, check=True).stdout
    start, markers = made('markers', 0), made('markers', 5000)
    table = made('tables', 1)
    piece = markers[len(start):] + table[len(table) // 2:] * 20
    with open(os.devnull, 'wb') as null:
        run = subprocess.Popen([program], stdin=subprocess.PIPE, stdout=null)
        run.stdin.write(start)
        written, due = 0, 1 << 20
        while written < GIGABYTE:
            run.stdin.write(piece)
            written += len(piece)
            if written >= due:
                run.stdin.flush()
                print(f'after {written / 1e6:6.0f} MB: {most_memory(run.pid)} KB at most', flush=True)
                due *= 4
        run.stdin.flush()
        print(f'after {written / 1e6:6.0f} MB: {most_memory(run.pid)} KB at most')
        run.stdin.close()
        run.wait()


def main(program, oracle, runs='7'):
    speed(program, oracle, int(runs))
    memory(program, oracle)


if __name__ == '__main__':
    main(*sys.argv[1:])
