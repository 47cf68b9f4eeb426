"""Logs for the tests of the pages, and what a page of a log has to show, read from the log's octets alone."""
import os
import shutil
import struct
import subprocess
import tempfile

ROOT = os.path.dirname(os.path.dirname(os.path.abspath(__file__)))
BUILT = os.path.join(ROOT, 'target', 'pages', 'release')
STORED = os.path.join(ROOT, 'tests', 'logs', 'planted_fault')
LONGEST = 65536
FIRST = 67  # where the events start
KINDS = ('frame', 'tick', 'pilot', 'terminate', 'link up')
FRAME, TICK, PILOT = range(3)
PROFILE = 0x6086
OF_CARS = {0x6064, 0x606A, 0x606F, 0x6076, 0x6078, 0x607C, 0x601C}
STATION, MODEM = bytes([2, 0, 0, 0, 0, 0xAA]), bytes([2, 0, 0, 0, 0, 0xBB])
NMK = bytes(range(0xC0, 0xD0))
CONFIGURATION = STATION + MODEM + bytes([1, 2, 3, 4, 5, 6, 0x3F]) + NMK + struct.pack('<3I', 0, 0, 1155)


def entry(first, second, octets=b''):
    """An event or a reply."""
    return struct.pack('<3I', first, second, len(octets)) + octets


def log_of(events, replies):
    before, behind = b''.join(events), b''.join(replies)
    second = FIRST + len(before)
    head = struct.pack('<5I', len(events), len(replies), FIRST, second, second + len(behind))
    return head + CONFIGURATION + before + behind


def ticks_log():
    """65,536 octets of ticks, in Unmatched, where each one is accepted."""
    count = (LONGEST - FIRST - 24) // 24
    return filled([entry(TICK, 10 * number) for number in range(count)], [entry(0, 0)] * count)


def request(number):
    """A CM_SLAC_PARM.REQ of the car with this number."""
    car = bytes([2, 0, 0, 1]) + struct.pack('>H', number)
    head = b'\xff' * 6 + car + bytes([0x88, 0xE1, 1, 0x64, 0x60, 0, 0])
    return (head + bytes(2) + struct.pack('>Q', number + 1)).ljust(60, b'\0')


def filled(events, replies):
    """A log of these, filled up to 65,536 octets by a frame that is no message."""
    left = LONGEST - FIRST - sum(map(len, events)) - sum(map(len, replies)) - 24
    return log_of([*events, entry(FRAME, 0, bytes(left))], [*replies, entry(1 if left < 19 else 2, 0)])


def cars_log():
    """65,536 octets of requests, each of another car, while the station is Unmatched and refuses them with 8."""
    count = (LONGEST - FIRST - 24) // 84
    return filled([entry(FRAME, 0, request(number)) for number in range(count)], [entry(8, 0)] * count)


def one_frame_log():
    """65,536 octets of one frame, which is no message."""
    return log_of([entry(FRAME, 0, bytes(LONGEST - FIRST - 24))], [entry(2, 0)])


def differing_log():
    """65,536 octets of ticks and requests of eight cars, none of whose confirmations is recorded."""
    events, size, number = [entry(PILOT, 5, b'\1')], FIRST + 25, 0
    while size < LONGEST - 200:
        event = entry(FRAME, 0, request(number % 12)) if number % 3 else entry(TICK, 5 + 10 * number)
        events.append(event)
        size += len(event) + 12
        number += 1
    return filled(events, [entry(0, 0)] * len(events))


def items(log, start, count):
    """The numbers and octets of events or replies, and where they end."""
    found, at = [], start
    for _ in range(count):
        first, second, length = struct.unpack_from('<3I', log, at)
        found.append((first, second, log[at + 12:at + 12 + length]))
        at += 12 + length
    return found, at


def car_of(frame, refusal):
    """The car of a frame that could be read."""
    if 1 <= refusal <= 6 or frame[12:15] != b'\x88\xe1\x01':
        return None
    kind = struct.unpack_from('<H', frame, 15)[0]
    if kind == PROFILE:
        return frame[19:25]
    return frame[6:12] if kind in OF_CARS else None


def expected(log):
    """What a page of a log without differences has to show: kinds of the events, cars, refusals, frames sent."""
    count = struct.unpack_from('<I', log)[0]
    events, second = items(log, FIRST, count)
    replies, _ = items(log, second, count)
    ours = {log[20:26], log[26:32]}
    cars = []
    for (kind, _, octets), (refusal, _, _) in zip(events, replies):
        car = car_of(octets, refusal) if kind == FRAME else None
        if car is not None and car not in ours and car not in cars:
            cars.append(car)
    refusals = {}
    for refusal, _, _ in replies:
        if refusal:
            refusals[refusal] = refusals.get(refusal, 0) + 1
    return {
        'kinds': [KINDS[kind] for kind, _, _ in events],
        'cars': [':'.join('%02X' % octet for octet in car) for car in cars],
        'refusals': refusals,
        'indications': sum(indication != 0 for _, indication, _ in replies),
        'nmk': log[39:55],
    }


class Files:
    """A temporary folder, in which logs and pages are written."""

    def __enter__(self):
        self.folder = tempfile.mkdtemp()
        return self

    def __exit__(self, *_):
        shutil.rmtree(self.folder)

    def write(self, name, octets):
        path = os.path.join(self.folder, name)
        with open(path, 'wb') as file:
            file.write(octets)
        return path


def run(program, *arguments, stdin=None):
    """Exit status, standard output as octets, standard error as text."""
    done = subprocess.run([program, *arguments], input=stdin, capture_output=True, check=False)
    return done.returncode, done.stdout, done.stderr.decode()


def built(name):
    """Has a script of tools/ build what it needs, and gives the program."""
    status, _, said = run(os.path.join(ROOT, 'tools', name), *([STORED] if name == 'session_page' else []))
    if status:
        raise SystemExit(said)
    return os.path.join(BUILT, name)
