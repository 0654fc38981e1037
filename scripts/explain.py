#!/usr/bin/env python3
"""A replay log in words: each record next to its answer, and the revision and the phase afterwards.

    python3 scripts/explain.py PROGRAM [FILE]             as `bin/replay --explain [FILE]` does
    python3 scripts/explain.py --phases PROGRAM [FILE]    the phases alone, as `oracle phases` prints them

The answers and revisions are the program's. The records are read here, and the phase follows from
the answers: a table carries its own, and a record that raises the revision has one phase that it
can lead to. docs/REPLAY.md has the format.
"""
import struct
import subprocess
import sys

PHASES = ('Prepared', 'SnapshotInstalled', 'LearnerAdded', 'CaughtUp', 'Fenced', 'Joint', 'Uniform')
STEPS = ('snapshot', 'caught up', 'continuation', 'fence', 'finalize')
# The phase that an Advance of each step leads to; a continuation keeps the one that there is.
STEP_PHASES = ('SnapshotInstalled', 'CaughtUp', None, 'Fenced', 'none')
# The phase that an observation leads to, by the one that there is.
OBSERVED = {'SnapshotInstalled': 'LearnerAdded', 'Fenced': 'Joint', 'Joint': 'Uniform'}
ANSWERS = {
    0: 'accepted', 1: 'InvalidSlot', 2: 'InvalidIncarnation', 3: 'IncarnationExhausted',
    4: 'FreshInstallationRequired', 5: 'TooLarge', 6: 'InvalidRecord', 12: 'InvalidLossEvidence',
    13: 'StaleIncarnation', 14: 'IdempotencyConflict', 15: 'ReplacementInProgress', 16: 'NoSurvivingQuorum',
    19: 'ReplacementPastFence', 23: 'ConfigurationEpochExhausted', 24: 'RevisionExhausted',
    25: 'InvalidTransition', 30: 'not representable', 31: 'set not rising', 33: 'bad record',
}
MARKS = (b'TB', b'MK', b'AD', b'BG', b'OB')
RECEIPT = 16 + 32 + 3 * 8 + 1 + 16
MEMBER = 2 + 8 + 32 + 32 + 8


class BadForm(Exception):
    """The bytes are not of the form that is read."""


class Fields:
    """The fields of a body, from its front."""

    def __init__(self, bytes_):
        self.bytes, self.at = bytes_, 0

    def take(self, count):
        end = self.at + count
        if end > len(self.bytes):
            raise BadForm()
        taken, self.at = self.bytes[self.at:end], end
        return taken

    def number(self, size):
        return int.from_bytes(self.take(size), 'big')

    def sized(self):
        return self.take(self.number(2))

    def cut(self):
        return self.number(8), self.number(8)

    def end(self):
        if self.at != len(self.bytes):
            raise BadForm()


def records(log):
    """The records of a log: mark, body, and how the log ends there, if it does (then the body is
    None)."""
    at = 0
    while at < len(log):
        mark = log[at:at + 2]
        head = log[at + 2:at + 4]
        size = struct.unpack('>H', head)[0] if len(head) == 2 else 0
        body = log[at + 4:at + 4 + size]
        if len(mark) < 2:
            ending = 'mark cut short'
        elif mark not in MARKS:
            ending = 'unknown mark ' + mark.hex()
        elif len(head) < 2:
            ending = 'size cut short'
        elif len(body) < size:
            ending = f'body cut short: {len(body)} of {size} bytes'
        else:
            yield mark, body, None
            at += 4 + size
            continue
        yield mark, None, ending
        return


def answers(program, log):
    """What the program says of the log: mark, answer and revision of each record."""
    run = subprocess.run([program], input=log, stdout=subprocess.PIPE, check=False)
    head, *lines = run.stdout.decode().split('\n')
    if run.returncode != 0 or head != 'replay 1' or lines[-1:] != ['']:
        raise SystemExit(f'explain: {program} did not play the log to its end')
    for number, line in enumerate(lines[:-1], 1):
        words = line.split(' ')
        if len(words) != 4 or words[0] != str(number):
            raise SystemExit(f'explain: not a line of a replay: {line}')
        yield words[1], int(words[2]), int(words[3])


class Table:
    """What an accepted table says: its epoch, its voters, its open request."""

    def __init__(self, body):
        fields = Fields(body)
        fields.take(4 + 2 + 32 + 32 + 8)
        self.epoch = fields.number(8)
        self.voters = [voter(fields) for _ in range(fields.number(1))]
        self.request, self.phase = None, 'none'
        if fields.number(1) == 1:
            fields.take(8)
            self.request = claims(fields.sized())
            for _ in range(2):
                fields.take(8)
                fields.take(MEMBER * fields.number(1))
            self.phase = PHASES[fields.number(1)]


def voter(fields):
    """A slot of a table as slot/incarnation; its receipt is left out."""
    slot, incarnation = fields.number(2), fields.number(8)
    fields.take(8 + 32 + 32 + 8 + 1)
    if fields.number(1) == 1:
        fields.take(RECEIPT)
    return f'{slot}/{incarnation}'


def claims(body):
    """Request id, slot and incarnation that an attestation speaks of."""
    fields = Fields(body)
    fields.take(2)
    request = fields.take(16)
    fields.take(32 + 32)
    return request, fields.number(2), fields.number(8)


def cut_text(cut):
    return f'({cut[0]}, {cut[1]})'


def node_text(node):
    """A node as slot/incarnation; as a number where it is invalid."""
    slot = node % 65536
    return f'{slot}/{node // 65536 + 1}' if 0 < slot and node < 2 ** 63 else str(node)


def id_text(bytes_):
    """Bytes in hexadecimal; one byte again and again is shortened."""
    if len(bytes_) > 2 and len(set(bytes_)) == 1:
        return f'{bytes_[:1].hex()}*{len(bytes_)}'
    return bytes_.hex()


def text(bytes_):
    plain = all(0x20 <= byte < 0x7f for byte in bytes_)
    return f'"{bytes_.decode("ascii")}"' if plain and len(bytes_) <= 64 else f'of {len(bytes_)} bytes'


def table_words(body, answer):
    if answer != 0:
        return f'table of {len(body)} bytes'
    table = Table(body)
    words = f'table of {len(body)} bytes, epoch {table.epoch}, voters {" ".join(table.voters)}, '
    if table.request is None:
        return words + 'no request'
    request, slot, incarnation = table.request
    return words + f'request {id_text(request)} for {slot}/{incarnation}'


def request_words(fields):
    request, digest = fields.take(16), fields.take(32)
    return f'request {id_text(request)} digest {id_text(digest)}'


def step_words(fields):
    step = fields.number(1)
    if step >= len(STEPS):
        raise BadForm()
    words = STEPS[step]
    if step < 2:
        words += ' at ' + cut_text(fields.cut())
    if step == 0:
        words += f' id {text(fields.sized())} digest {id_text(fields.take(32))}'
    return words


def begin_words(fields):
    revision = fields.number(8)
    fields.take(32 + 32)
    epoch = fields.number(8)
    slot, incarnation = fields.number(2), fields.number(8)
    fields.take(32 + 32)
    generation = fields.number(8)
    attestation = fields.sized()
    fields.take(32 + 32)
    try:
        request, lost, old = claims(attestation)
        words = f'request {id_text(request)} attests the loss of {lost}/{old}'
    except BadForm:
        words = f'attestation of {len(attestation)} bytes'
    return f'{words}, candidate {slot}/{incarnation} generation {generation}, expects revision {revision} epoch {epoch}'


def set_words(fields):
    nodes = [fields.number(8) for _ in range(fields.number(2))]
    return '{' + ' '.join(node_text(node) for node in nodes) + '}'


def observation_words(fields):
    sets = [set_words(fields) for _ in range(fields.number(1))]
    return f'sets {" ".join(sets) or "none"} nodes {set_words(fields)}'


def call_words(mark, body):
    """A record that calls something; `BadForm` where its body is not of its form."""
    fields = Fields(body)
    words = 'at ' + cut_text(fields.cut()) + ' '
    if mark == b'MK':
        words += request_words(fields)
    elif mark == b'AD':
        words += request_words(fields) + ', ' + step_words(fields)
    elif mark == b'BG':
        words += begin_words(fields)
    else:
        words += observation_words(fields)
    fields.end()
    return words


def words(mark, body, ending, answer, stands):
    """A record in words, and of 33 the reason where the body is not it."""
    if ending is not None:
        return ending + '; nothing after it is read'
    if mark == b'TB':
        return table_words(body, answer) + ('; a table stands already' if stands else '')
    try:
        return call_words(mark, body) + ('' if stands else '; no table stands')
    except BadForm:
        return f'not of its form ({len(body)} bytes)'


def phase_after(phase, mark, body, answer, raised):
    """The phase after a record: `-` with no table, `none` with no request."""
    if mark == b'TB':
        return Table(body).phase if answer == 0 else phase
    if not raised:
        return phase
    if mark == b'BG':
        return 'Prepared'
    if mark == b'AD':
        return STEP_PHASES[body[16 + 16 + 32]] or phase
    return OBSERVED[phase]


def explained(program, log):
    """Each record: number, mark as printed, words, answer, revision before and after it, phase
    after it."""
    phase, before = '-', 0
    given = answers(program, log)
    for number, (mark, body, ending) in enumerate(records(log), 1):
        shown = mark.decode() if mark in MARKS else '??'
        printed, answer, revision = next(given, (None, None, None))
        if printed != shown:
            raise SystemExit(f'explain: the program has no line for record {number} {shown}')
        text_ = words(mark, body, ending, answer, phase != '-')
        if body is not None:
            phase = phase_after(phase, mark, body, answer, revision > before)
        yield number, shown, text_, answer, before, revision, phase
        before = revision
    if next(given, None) is not None:
        raise SystemExit('explain: the program has more lines than the log has records')


def phases(program, log):
    """The phase after each record, as `oracle phases` has it."""
    return ''.join(f'{number} {phase}\n' for number, *_, phase in explained(program, log))


def main(arguments):
    alone = arguments[:1] == ['--phases']
    arguments = arguments[1:] if alone else arguments
    if not 1 <= len(arguments) <= 2:
        raise SystemExit(__doc__)
    if len(arguments) == 2:
        with open(arguments[1], 'rb') as file:
            log = file.read()
    else:
        log = sys.stdin.buffer.read()
    if alone:
        sys.stdout.write(phases(arguments[0], log))
        return
    for number, mark, text_, answer, before, revision, phase in explained(arguments[0], log):
        raised = ' (raised)' if 0 < before < revision else ''
        print(f'{number} {mark} {text_}\n    {answer} {ANSWERS.get(answer, "?")}, revision {revision}{raised}, phase {phase}')


if __name__ == '__main__':
    try:
        main(sys.argv[1:])
    except BrokenPipeError:
        # The reader has seen enough; what is still held must not be written at the end.
        sys.stdout = None
