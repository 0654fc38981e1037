#!/usr/bin/env python3
"""Lets things go wrong around the replay program and the example service, and fails where one of
them does not stand it: bin/faults runs it, from the root of the repository.

    python3 scripts/faults.py REPLAY SERVICE SHIM FOLDER

REPLAY is the replay program, SERVICE the example journal_service, SHIM the library of
scripts/faults.c, FOLDER one for the service's files. The expected lines are the stored ones,
samples/NAME.lines.
"""
import errno
import itertools
import os
import random
import resource
import shutil
import signal
import subprocess
import sys
import time

import explain
from replays import HEAD, PATIENCE, Difference, held, read_line, stored

# Logs for the replay program: an end with signals, and every limit of the output's size.
SIGNALLED = ('whole-replacement', 'supersession', 'every-answer')
LIMITED = ('worked-example', 'whole-replacement', 'every-answer')
# Logs for the service. Each starts with a table, and no unknown mark ends it.
SERVED = ('whole-replacement', 'supersession')
ENDING = (signal.SIGTERM, signal.SIGINT, signal.SIGHUP, signal.SIGKILL)
# Every Rattle program ignores this one from its start, as Rust's do: a write that nobody reads fails.
IGNORED = (signal.SIGPIPE,)

# A shell has a command in the background ignore SIGINT, and nohup SIGHUP; other starters block
# signals. The programs below would inherit that.
for _number in ENDING[:3]:
    if signal.getsignal(_number) is signal.SIG_IGN:
        signal.signal(_number, signal.SIG_DFL)
signal.pthread_sigmask(signal.SIG_UNBLOCK, ENDING + IGNORED + (signal.SIGCONT,))
# Kinds of fault that kill, and errors that a system gives.
KILLS = ('before', 'after', 'half')
ERRORS = (errno.ENOSPC, errno.EIO)
# Restarts that are killed again.
CHAINS = 60


def marks(log):
    """Where each whole record of a log ends."""
    at, ends = 0, [0]
    for _, body, _ in explain.records(log):
        if body is None:
            break
        at += 4 + len(body)
        ends.append(at)
    return ends


# ---- the replay program

def waiting(program, log, count, lines):
    """The program with so many bytes of a log given, all lines read that are due, and no more input
    yet."""
    run = subprocess.Popen([program], stdin=subprocess.PIPE, stdout=subprocess.PIPE, stderr=subprocess.PIPE, bufsize=0)
    run.stdin.write(log[:count])
    for line in lines:
        held('a line before a signal', line, read_line(run.stdout))
    return run


def signals(program, logs):
    """A signal that ends the program, after each record, in the head of the next one and in its
    body: every line that was due is there, and nothing more. One that is ignored, or that stops it
    for a while, changes nothing."""
    cases = 0
    for name in SIGNALLED:
        log, lines = logs[name]
        lines = lines.splitlines(keepends=True)
        ends = marks(log)
        for number, (end, after) in enumerate(zip(ends, ends[1:])):
            for sent, place in itertools.product(ENDING + IGNORED, sorted({end, end + 2, (end + after) // 2})):
                run = waiting(program, log, place, lines[:1 + number])
                run.send_signal(sent)
                rest, said = run.communicate(None if sent in ENDING else log[place:], timeout=PATIENCE)
                due = (b'', b'', -sent) if sent in ENDING else (b''.join(lines[1 + number:]), b'', 0)
                held(f'{name}, {sent.name} at {place}', due, (rest, said, run.returncode))
                cases += 1
            run = waiting(program, log, end + 2, lines[:1 + number])
            run.send_signal(signal.SIGSTOP)
            run.stdin.write(log[end + 2:after])
            run.send_signal(signal.SIGCONT)
            rest, said = run.communicate(log[after:], timeout=PATIENCE)
            held(f'{name}, stopped at {end}', (b''.join(lines[1 + number:]), b'', 0), (rest, said, run.returncode))
            cases += 1
    return cases


def blocked(program, logs):
    """A signal while the program waits for room in a pipe that nobody reads: what is in the pipe
    are the first bytes of the right lines."""
    table = logs['worked-example'][0][:184]
    log = table + b'MK\0\0' * 60000
    lines = HEAD + b'1 TB 0 1\n' + b''.join(b'%d MK 33 1\n' % number for number in range(2, 60002))
    for sent in ENDING + IGNORED:
        with open(os.path.join(FOLDER, 'log'), 'wb') as file:
            file.write(log)
        with open(os.path.join(FOLDER, 'log'), 'rb') as file:
            run = subprocess.Popen([program], stdin=file, stdout=subprocess.PIPE, stderr=subprocess.PIPE)
        first = os.read(run.stdout.fileno(), 100)
        # The pipe is full once the program sleeps in a write.
        asleep(run.pid)
        run.send_signal(sent)
        rest, said = run.communicate(timeout=PATIENCE)
        given = first + rest
        if sent in IGNORED:
            held(f'{sent.name} in a write', (lines, b'', 0), (given, said, run.returncode))
            continue
        held(f'{sent.name} in a write', (lines[:len(given)], b'', -sent), (given, said, run.returncode))
        if len(given) == len(lines):
            raise Difference('the pipe took all lines: no write was waited for')
    return len(ENDING + IGNORED)


def asleep(pid):
    """Waits until a process sleeps twice in a row at the same count of its switches."""
    before = None
    for _ in range(PATIENCE * 50):
        with open(f'/proc/{pid}/status', encoding='ascii') as file:
            status = dict(line.split(':', 1) for line in file)
        now = status['voluntary_ctxt_switches']
        if 'S' in status['State'].split()[0] and now == before:
            return
        before = now
        time.sleep(0.02)
    raise Difference('the program does not come to rest')


def limited(program, logs):
    """An output that takes so many bytes and no more, for every number of bytes: a file that may
    not grow further, as on a full disk."""
    cases = 0
    out = os.path.join(FOLDER, 'out')
    for name in LIMITED:
        log, lines = logs[name]
        for limit in range(len(lines) + 2):
            def prepare(limit=limit):
                signal.signal(signal.SIGXFSZ, signal.SIG_IGN)
                resource.setrlimit(resource.RLIMIT_FSIZE, (limit, limit))
            with open(out, 'wb') as file:
                run = subprocess.run([program], input=log, stdout=file, stderr=subprocess.PIPE, timeout=PATIENCE, preexec_fn=prepare, check=False)
            with open(out, 'rb') as file:
                held(f'{name}, a file of at most {limit} bytes', lines[:limit], file.read())
            ended_by_itself(f'{name}, a file of at most {limit} bytes', run)
            check_said(f'{name}, a file of at most {limit} bytes', limit < len(lines), run.stderr)
            cases += 1
    return cases


def full_disk(program, logs):
    """A small file system in memory as the output, where this user may mount one."""
    log = logs['worked-example'][0][:184] + b'MK\0\0' * 2000
    lines = HEAD + b'1 TB 0 1\n' + b''.join(b'%d MK 33 1\n' % number for number in range(2, 2002))
    place = os.path.join(FOLDER, 'disk')
    os.makedirs(place, exist_ok=True)
    # What mount says, as a hint on the machine's own file systems, is not the program's.
    script = 'mount -t tmpfs -o size=4096 none "$1" 2>/dev/null || exit 77; "$0" >"$1/out" || exit; cat "$1/out"'
    words = ['unshare', '-m', 'sh', '-c', script, program, place]
    if shutil.which(words[0]):
        run = subprocess.run(words, input=log, stdout=subprocess.PIPE, stderr=subprocess.PIPE, timeout=PATIENCE, check=False)
    if not shutil.which(words[0]) or run.returncode == 77 or b'unshare' in run.stderr:
        print('faults: a full file system: not tried, it may not be mounted here')
        return 0
    held('a full file system', (lines[:4096], 0), (run.stdout, run.returncode))
    check_said('a full file system', True, run.stderr)
    return 1


def ended_by_itself(asked, run):
    if run.returncode < 0:
        raise Difference(f'{asked}: ended by signal {-run.returncode}')


def check_said(asked, fails, said):
    """An output that fails is said in one line; one that nobody reads is no fault."""
    if fails != (said.count(b'\n') == 1 and said.startswith(b'replay: standard output: ')) or (said and not fails):
        raise Difference(f'{asked}: on standard error {said!r}')


def failing_calls(program, logs):
    """Each read and each write of the program fails, is short or is interrupted, one at a time."""
    cases = 0
    for name in SIGNALLED:
        log, lines = logs[name]
        path = os.path.join(FOLDER, 'log')
        with open(path, 'wb') as file:
            file.write(log)
        calls = traced([program], path)
        for number, call in enumerate(calls, 1):
            kinds = ['short', str(errno.EIO)]
            if call[0] == 'write':
                kinds += [str(errno.ENOSPC), str(errno.EPIPE)]
            if call[0] == 'read':
                kinds.append(str(errno.EINTR))
            for kind in kinds:
                run = faulty([program], number, kind, path)
                asked = f'{name}, call {number} ({call[0]}), {kind}'
                ended_by_itself(asked, run)
                whole = kind in ('short', str(errno.EINTR))
                held(asked, lines if whole else lines[:len(run.stdout)], run.stdout)
                if not run.stdout.endswith(b'\n') and run.stdout:
                    raise Difference(f'{asked}: a line that is cut short: {run.stdout[-60:]!r}')
                if call[0] == 'write':
                    check_said(asked, not whole and kind != str(errno.EPIPE), run.stderr)
                if call[0] == 'read' and not whole and run.stderr.count(b'\n') != 1:
                    raise Difference(f'{asked}: it ends without a message: {run.stderr!r}')
                cases += 1
    return cases


# ---- a program under the shim

def faulty(words, number, kind, path=None):
    """Runs a program of which one call goes wrong."""
    # A panic's message, without the trace that takes long to print.
    environment = dict(os.environ, LD_PRELOAD=SHIM, FAULT_AT=str(number), FAULT_KIND=kind, RUST_BACKTRACE='0')
    with open(path or os.devnull, 'rb') as file:
        return subprocess.run(words, stdin=file, stdout=subprocess.PIPE, stderr=subprocess.PIPE, timeout=PATIENCE, env=environment, check=False)


def traced(words, path=None):
    """The calls of a program that nothing disturbs: name, path or descriptor, and the bytes that
    are written."""
    trace = os.path.join(FOLDER, 'trace')
    remove(trace)
    environment = dict(os.environ, LD_PRELOAD=SHIM, FAULT_TRACE=trace)
    with open(path or os.devnull, 'rb') as file:
        subprocess.run(words, stdin=file, stdout=subprocess.PIPE, timeout=PATIENCE, env=environment, check=True)
    if not os.path.exists(trace):
        raise Difference(f'{words[0]} does not load the shim')
    with open(trace, encoding='ascii') as file:
        return [(name, subject, bytes.fromhex(rest)) for name, subject, rest in (line.rstrip('\n').split(' ') for line in file)]


def remove(path):
    if os.path.exists(path):
        os.remove(path)


# ---- the service

class Service:
    """The service on one log: the lines that it is to print, and the file that it is to keep after
    each record."""

    def __init__(self, program, name, log, lines):
        self.program, self.name = program, name
        self.state, self.log = os.path.join(FOLDER, name + '.state'), os.path.join(FOLDER, name + '.log')
        ends = marks(log)
        answers = [line.split() for line in lines.splitlines()[1:]]
        self.lines = [b'%d %s %s\n' % (end, answer, revision) for end, (_, _, answer, revision) in zip(ends[1:], answers)]
        # What the file holds after so many records, from runs that nothing disturbs.
        self.kept = [None]
        for end in ends[1:]:
            self.start(log[:end])
            held(f'{name}, the first {end} bytes', (0, b''), self.plain()[1:])
            self.kept.append(self.stored())
        self.start(log)
        held(f'{name}, undisturbed', (b''.join(self.lines), 0, b''), self.plain())
        self.check_kept(ends)

    def check_kept(self, ends):
        """The file has the place of a record that changed the table, and the revision that was
        printed for it."""
        for number, kept in enumerate(self.kept[1:], 1):
            place, revision = int.from_bytes(kept[:8], 'big'), int.from_bytes(kept[78:86], 'big')
            held(f'{self.name}, the revision after record {number}', int(self.lines[number - 1].split()[2]), revision)
            if place not in ends[1:number + 1]:
                raise Difference(f'{self.name}: the file after record {number} has the place {place}')

    def words(self):
        return [self.program, self.state, self.log]

    def start(self, log):
        """A log, and no file yet."""
        remove(self.state)
        remove(self.state + '.new')
        with open(self.log, 'wb') as file:
            file.write(log)

    def restart(self):
        remove(self.state)
        remove(self.state + '.new')

    def stored(self):
        if not os.path.exists(self.state):
            return None
        with open(self.state, 'rb') as file:
            return file.read()

    def plain(self):
        run = subprocess.run(self.words(), stdout=subprocess.PIPE, stderr=subprocess.PIPE, timeout=PATIENCE, check=False)
        return run.stdout, run.returncode, run.stderr

    def first_line(self, kept):
        """The number of the first line that a run prints that finds this file."""
        if kept is None:
            return 0
        place = int.from_bytes(kept[:8], 'big')
        return next(number for number, line in enumerate(self.lines) if int(line.split()[0]) == place)

    def confirmed(self, asked, found, said):
        """How many records are confirmed after a run that found this file and has said this. What
        it said are the right lines, and the last one may be cut short."""
        first = self.first_line(found)
        right = b''.join(self.lines[first:])
        held(asked + ', its lines', right[:len(said)], said)
        return first + said.count(b'\n')

    def check_stored(self, asked, confirmed):
        """The file is the one after the confirmed records, or after one more."""
        kept = self.stored()
        if kept not in (self.kept[confirmed:confirmed + 2]):
            place = kept and int.from_bytes(kept[:8], 'big')
            raise Difference(f'{asked}: {confirmed} records are confirmed, and the file is another one (place {place})')

    def check_end(self, asked, confirmed):
        """Started again, it leaves out no record that was not confirmed, and comes to the same
        end."""
        found = self.stored()
        first = self.first_line(found)
        if first > confirmed:
            raise Difference(f'{asked}: started again, it begins with record {first + 1}, and {confirmed} are confirmed')
        held(asked + ', started again', (b''.join(self.lines[first:]), 0, b''), self.plain())
        held(asked + ', the last file', self.kept[-1], self.stored())


def check_run(service, asked, found, run, confirmed):
    """What a disturbed run has said and left. Gives how many records are confirmed now."""
    confirmed = max(confirmed, service.confirmed(asked, found, run.stdout))
    service.check_stored(asked, confirmed)
    return confirmed


def killed_at_every_call(services):
    """Killed before, within and after each call that touches a file, and started again."""
    cases = 0
    for service in services:
        service.restart()
        calls = traced(service.words())
        for number, kind in itertools.product(range(1, len(calls) + 1), KILLS):
            if kind == 'half' and calls[number - 1][0] != 'write':
                continue
            service.restart()
            asked = f'{service.name}, killed {kind} call {number} ({" ".join(calls[number - 1][:2])})'
            run = faulty(service.words(), number, kind)
            held(asked, -signal.SIGKILL, run.returncode)
            confirmed = check_run(service, asked, None, run, 0)
            service.check_end(asked, confirmed)
            cases += 1
    return cases


def killed_again(services):
    """Killed at any call, started again and killed again, up to the end."""
    chance = random.Random(17)
    cases = 0
    for service in services:
        service.restart()
        most = len(traced(service.words()))
        for _ in range(CHAINS):
            service.restart()
            confirmed, asked = 0, f'{service.name}, killed again and again'
            for _ in range(40):
                found = service.stored()
                # Short runs too, which are killed before they come further.
                run = faulty(service.words(), chance.randint(1, chance.choice((6, 12, most))), chance.choice(KILLS))
                confirmed = check_run(service, asked, found, run, confirmed)
                cases += 1
                if run.returncode == 0:
                    break
            service.check_end(asked, confirmed)
    return cases


def errors_at_every_call(services):
    """Each call fails once, is interrupted or is short. An error ends the service with a message,
    and the others change nothing."""
    cases = 0
    for service in services:
        service.restart()
        calls = traced(service.words())
        for number, call in enumerate(calls, 1):
            passing = ['short'] if call[0] in ('read', 'write') else []
            # The C library's rename is not interrupted, and its callers do not ask for that.
            passing += [str(errno.EINTR)] if call[0] != 'rename' else []
            errors = ERRORS + (errno.EPIPE,) if call[:2] == ('write', '1') else ERRORS
            for kind in [str(error) for error in errors] + passing:
                service.restart()
                asked = f'{service.name}, call {number} ({" ".join(call[:2])}), {kind}'
                run = faulty(service.words(), number, kind)
                ended_by_itself(asked, run)
                confirmed = check_run(service, asked, None, run, 0)
                if kind in passing:
                    held(asked, (b''.join(service.lines), 0, b''), (run.stdout, run.returncode, run.stderr))
                elif run.returncode == 0 or not run.stderr:
                    raise Difference(f'{asked}: exit {run.returncode}, and on standard error {run.stderr!r}')
                service.check_end(asked, confirmed)
                cases += 1
    return cases


# ---- the power fails

class Disk:
    """What a disk may hold after the power fails: a file's bytes are sure once it is synced, and a
    name once its folder is synced. A name that is not sure may be the old or the new one; bytes
    that are not sure may be there, in part or not at all."""

    def __init__(self):
        self.files = {}     # path: [all bytes, bytes that are sure]
        self.sure = {}      # path: the file that the name is sure to name
        self.names = {}     # path: the file that the name names now
        self.next = 0

    def play(self, call):
        name, path, rest = call
        if name == 'open' and rest == b't':
            self.next += 1
            self.names[path] = self.next
            self.files[self.next] = [b'', b'']
        elif name == 'write' and path in self.names:
            self.files[self.names[path]][0] += rest
        elif name == 'fsync' and path in self.names:
            file = self.files[self.names[path]]
            file[1] = file[0]
        elif name == 'fsync':
            self.sure = dict(self.names)
        elif name == 'rename':
            self.names[rest.decode()] = self.names.pop(path)

    def states(self, path):
        """What may be found under a name: None, or the bytes."""
        found = set()
        for names in (self.sure, self.names):
            if path not in names:
                found.add(None)
                continue
            whole, sure = self.files[names[path]]
            found |= {whole, sure, sure + whole[len(sure):(len(sure) + len(whole)) // 2]}
        return found


def power_cuts(services):
    """After each call the power fails: whatever the disk may hold then, nothing that was confirmed
    is lost."""
    cases = 0
    for service in services:
        service.restart()
        calls = traced(service.words())
        disk, said = Disk(), b''
        for number, call in enumerate(calls, 1):
            disk.play(call)
            if call[:2] == ('write', '1'):
                said += call[2]
            confirmed = said.count(b'\n')
            for state in disk.states(service.state):
                asked = f'{service.name}, the power fails after call {number} ({" ".join(call[:2])})'
                service.restart()
                if state is not None:
                    with open(service.state, 'wb') as file:
                        file.write(state)
                service.check_stored(asked, confirmed)
                service.check_end(asked, confirmed)
                cases += 1
    return cases


def main(program, journal_service):
    logs = {name: (log, lines) for name, log, lines in stored()}
    total = 0
    parts = [
        ('replay: signals', lambda: signals(program, logs)),
        ('replay: signals in a write that waits', lambda: blocked(program, logs)),
        ('replay: an output that takes so many bytes', lambda: limited(program, logs)),
        ('replay: a full file system', lambda: full_disk(program, logs)),
        ('replay: each read and write fails, is short or interrupted', lambda: failing_calls(program, logs)),
    ]
    services = []
    parts += [
        ('service: undisturbed', lambda: services.extend(Service(journal_service, name, *logs[name]) for name in SERVED) or len(SERVED)),
        ('service: killed before, in and after each call', lambda: killed_at_every_call(services)),
        ('service: killed again and again', lambda: killed_again(services)),
        ('service: each call fails, is short or interrupted', lambda: errors_at_every_call(services)),
        ('service: the power fails after each call', lambda: power_cuts(services)),
    ]
    for name, part in parts:
        cases = part()
        total += cases
        print(f'faults: {name}: {cases} cases', flush=True)
    print(f'faults: {total} cases, 0 failed')


if __name__ == '__main__':
    SHIM, FOLDER = os.path.abspath(sys.argv[3]), os.path.abspath(sys.argv[4])
    try:
        main(os.path.abspath(sys.argv[1]), os.path.abspath(sys.argv[2]))
    except Difference as difference:
        print(f'faults: FAILED: {difference}', file=sys.stderr)
        sys.exit(1)
    except subprocess.TimeoutExpired as late:
        print(f'faults: FAILED: a program hangs: {late}', file=sys.stderr)
        sys.exit(1)
