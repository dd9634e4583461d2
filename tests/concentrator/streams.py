#!/usr/bin/env python3
"""Runs the example on pipes that stay open, on files that fail, and on ten million octets of noise.

    streams.py PROGRAM FAULTY-PROGRAM TABLE [TEST ...]

FAULTY-PROGRAM is the example with the stand-ins of stream_faults.c. Without the name of a test, all tests run. The exit status is 1 if
a test fails. TIMEOUT is only for a program that does not answer; no test waits for it otherwise.
"""
import contextlib
import os
import random
import re
import select
import signal
import socket
import subprocess
import sys
import tempfile
import time

PROGRAM, FAULTY, TABLE = sys.argv[1:4]
TIMEOUT = float(os.environ.get('STREAMS_TIMEOUT', '60'))
PIPE = subprocess.PIPE
OUTPUT_FAILED, NOT_STARTED, INPUT_FAILED = 1, 2, 3
REPORT = re.compile(r'(message of the frame|frame) at octet (\d+): refused (\d+) at \d+ \(.+\)')
LEFT_OUT = re.compile(r'(\d+) reports left out')
SUMMARY = re.compile(r'frames (\d+) passed on (\d+) refused (\d+) octets in (\d+) out (\d+) skipped (\d+) already short (\d+)(?: held (\d+))?')
KIND = re.compile(r'messages refused with (\d+) \(.+\): (\d+)')


def require(condition, what):
    if not condition:
        raise AssertionError(what)


def expect(what, got, wanted):
    require(got == wanted, f'{what}: {got!r} instead of {wanted!r}')


# Frames of a meter with one register, under the table of table.hex.

def short_form(meter):
    """The shortest frame. The meter's number has four octets."""
    return b'\x0d\x14' + meter.to_bytes(4, 'big') + b'\x27\x03kWh\x11\x07\x20'


def long_form(meter):
    """A frame with a longer prefix, whose message has longer heads and numbers, and reads the same."""
    register = b'\x03kWh' + b'\x1c\x04\x00\x00\x00\x07' + b'\x2c\x01\x00'
    message = b'\xf5\x00\x01\x00' + meter.to_bytes(4, 'big') + b'\xec\x02' + bytes([len(register)]) + register
    return b'\xfd' + len(message).to_bytes(2, 'big') + message


def frame_of(meter):
    """By turns a short and a long form."""
    return long_form(meter) if meter % 2 else short_form(meter)


METERS = range(0x40000000, 0x40000064)
REFUSED_FRAME = b'\x02\x13\x01'


# Starting the program, and reading what it writes.

@contextlib.contextmanager
def running(*arguments, program=None, **options):
    """The program with pipes, or with the streams that the options name. It is ended with the block."""
    streams = {'stdin': PIPE, 'stdout': PIPE, 'stderr': PIPE, **options}
    process = subprocess.Popen([program or PROGRAM, *(arguments or [TABLE])], bufsize=0, **streams)
    try:
        yield process
    finally:
        process.kill()
        process.wait()
        for stream in (process.stdin, process.stdout, process.stderr):
            if stream:
                stream.close()


def completed(*arguments, program=None, **options):
    """Runs the program to its end. Returns its status, its output and what it wrote to standard error."""
    streams = {'stdout': PIPE, 'stderr': PIPE, **options}
    if 'input' not in streams:
        streams.setdefault('stdin', subprocess.DEVNULL)
    done = subprocess.run([program or PROGRAM, *(arguments or [TABLE])], timeout=TIMEOUT, **streams)
    return done.returncode, done.stdout, (done.stderr or b'').decode()


def read_part(stream, length, deadline, before):
    """Reads what is there, which is nothing at the end. Fails after the deadline."""
    ready = select.select([stream], [], [], max(0, deadline - time.monotonic()))[0]
    require(ready, f'nothing more came after {before} octets')
    return os.read(stream.fileno(), length)


def read_until(stream, enough):
    """Reads until enough(octets) holds."""
    got, deadline = b'', time.monotonic() + TIMEOUT
    while not enough(got):
        part = read_part(stream, 4096, deadline, len(got))
        require(part, f'the stream ended after {len(got)} octets')
        got += part
    return got


def write_in_time(stream, octets):
    """Writes so many octets at a time as a pipe that is ready takes at once."""
    deadline = time.monotonic() + TIMEOUT
    while octets:
        require(select.select([], [stream], [], max(0, deadline - time.monotonic()))[1], 'the program does not read')
        octets = octets[os.write(stream.fileno(), octets[:select.PIPE_BUF]):]


def read_slowly(stream):
    """Reads to the end, a little at a time."""
    got, deadline, part = b'', time.monotonic() + TIMEOUT, b'.'
    while part:
        part = read_part(stream, 777, deadline, len(got))
        got += part
    return got


def expect_frames(process, meters):
    """Reads the shortest frames of the meters, and nothing more."""
    wanted = b''.join(short_form(meter) for meter in meters)
    expect('output', read_until(process.stdout, lambda got: len(got) >= len(wanted)), wanted)


def expect_end(process, status):
    """Waits for the end of the program. Returns what it wrote to standard error."""
    expect('exit status', process.wait(TIMEOUT), status)
    return process.stderr.read().decode()


def wait_until_full(pipe):
    """Waits until a pipe takes no more."""
    deadline = time.monotonic() + TIMEOUT
    while select.select([], [pipe], [], 0)[1]:
        require(time.monotonic() < deadline, 'the pipe did not fill')
        time.sleep(0.01)


def summary_line(text):
    lines = [line for line in text.splitlines() if line.startswith('frames ')]
    require(lines, f'no summary in {text!r}')
    return lines[-1]


# The tests.

def open_pipe():
    """Frames are passed on while the input stays open: a hundred at once, then each before the next is written."""
    with running() as process:
        process.stdin.write(b''.join(frame_of(meter) for meter in METERS))
        expect_frames(process, METERS)
        for meter in METERS:
            process.stdin.write(frame_of(meter))
            expect_frames(process, [meter])
        process.stdin.close()
        expect('summary', summary_line(expect_end(process, 0)), f'frames 200 passed on 200 refused 0 octets in {100 * (14 + 27)} '
               f'out {200 * 14} skipped 0 already short 100')


def largest_frames():
    """Frames with the longest message and the longest prefix come out while the input stays open."""
    message = b'\x5d' + (65533).to_bytes(2, 'big') + bytes(octet % 251 for octet in range(65533))
    with running() as process:
        for _ in range(3):
            write_in_time(process.stdin, b'\xff' + len(message).to_bytes(8, 'big') + message)
            got = read_until(process.stdout, lambda got: len(got) >= 5 + len(message))
            require(got == b'\xfe' + len(message).to_bytes(4, 'big') + message, f'{len(got)} octets came, not the expected ones')
        process.stdin.close()
        expect('summary', summary_line(expect_end(process, 0)), f'frames 3 passed on 3 refused 0 octets in {3 * 65545} '
               f'out {3 * 65541} skipped 0 already short 3')


def octet_by_octet():
    """A frame comes out with its last octet, and nothing comes out before. The next frame has begun in the same octets."""
    with running() as process:
        for octet in long_form(METERS[0])[:-1]:
            process.stdin.write(bytes([octet]))
            require(not select.select([process.stdout], [], [], 0)[0], 'output before the frame is whole')
        process.stdin.write(long_form(METERS[0])[-1:] + long_form(METERS[1])[:-1])
        expect_frames(process, [METERS[0]])
        process.stdin.write(long_form(METERS[1])[-1:])
        expect_frames(process, [METERS[1]])
        process.stdin.close()
        expect_end(process, 0)


def non_blocking_input():
    """A non-blocking pipe that is empty now and then is not the end of the input."""
    reader, writer = os.pipe()
    os.set_blocking(reader, False)
    with open(writer, 'wb', 0) as source, running(stdin=reader) as process:
        os.close(reader)
        for meter in METERS[:20]:
            time.sleep(0.002)
            source.write(frame_of(meter)[:7])
            time.sleep(0.002)
            source.write(frame_of(meter)[7:])
            expect_frames(process, [meter])
        source.close()
        expect_end(process, 0)


def non_blocking_output():
    """A non-blocking pipe that is full is not a failed write, and no octet is lost."""
    reader, writer = os.pipe()
    os.set_blocking(writer, False)
    meters = range(0x40000000, 0x40000000 + 20000)
    with tempfile.TemporaryFile() as source, open(reader, 'rb', 0) as sink:
        source.write(b''.join(frame_of(meter) for meter in meters))
        source.seek(0)
        with running(stdin=source, stdout=writer) as process:
            wait_until_full(writer)
            os.close(writer)
            got = read_slowly(sink)
            expect_end(process, 0)
    require(got == b''.join(short_form(meter) for meter in meters), f'{len(got)} octets came, not the expected ones')


def summary_on_signal():
    """SIGUSR1 while the program waits for input gives a summary at once. Signals between and inside frames lose nothing."""
    with running() as process:
        process.stdin.write(short_form(METERS[0]) + REFUSED_FRAME + long_form(METERS[1])[:9])
        expect_frames(process, METERS[:1])
        process.send_signal(signal.SIGUSR1)
        said = read_until(process.stderr, lambda got: b'messages refused' in got and got.endswith(b'\n')).decode().splitlines()
        expect('summary', said[1:], ['frames 2 passed on 1 refused 1 octets in 17 out 14 skipped 0 already short 1 held 9',
                                     'messages refused with 4 (contents go past the end of the message around them): 1'])
        process.stdin.write(long_form(METERS[1])[9:])
        expect_frames(process, METERS[1:2])
        for meter in METERS[:50]:
            process.send_signal(signal.SIGUSR1)
            process.stdin.write(frame_of(meter)[:9])
            process.send_signal(signal.SIGUSR1)
            process.stdin.write(frame_of(meter)[9:])
            expect_frames(process, [meter])
        process.stdin.close()
        expect('last summary', SUMMARY.match(summary_line(expect_end(process, 0))).groups()[:3], ('53', '52', '1'))


def expect_summary_on_signal(process):
    """The program has started when it reports the first frame. Then it gets SIGUSR1, and has to write a summary."""
    read_until(process.stderr, lambda got: REPORT.match(got.decode()))
    process.send_signal(signal.SIGUSR1)
    read_until(process.stderr, lambda got: SUMMARY.search(got.decode()))


def summary_when_busy():
    """SIGUSR1 gives a summary also while input is always ready, and while the output takes nothing."""
    reader, writer = os.pipe()
    with tempfile.TemporaryFile() as endless:
        endless.write(REFUSED_FRAME)
        endless.truncate(1 << 36)
        endless.seek(0)
        with running(stdin=endless, stdout=subprocess.DEVNULL) as process:
            expect_summary_on_signal(process)
        endless.seek(0)
        with running(stdin=endless, stdout=writer) as process:
            wait_until_full(writer)
            expect_summary_on_signal(process)
    os.close(reader)
    os.close(writer)


def full_disk():
    """A write error ends the program at the first frame, while the input stays open, with a message and the summary."""
    with open('/dev/full', 'wb') as full, running(stdout=full) as process:
        process.stdin.write(short_form(METERS[0]))
        said = expect_end(process, OUTPUT_FAILED)
        expect('first line', said.splitlines()[0], 'standard output: No space left on device')
        expect('summary', summary_line(said), 'frames 1 passed on 1 refused 0 octets in 14 out 0 skipped 0 already short 1')


def closed_output():
    """A reader that is gone is a write error, and SIGPIPE does not end the program. An output that was never open is one too."""
    reader, writer = os.pipe()
    with running(stdout=writer) as process:
        os.close(writer)
        os.close(reader)
        process.stdin.write(short_form(METERS[0]))
        expect('first line', expect_end(process, OUTPUT_FAILED).splitlines()[0], 'standard output: Broken pipe')
    status, _, said = completed('-c', 'exec "$0" "$1" >&-', PROGRAM, TABLE, program='/bin/sh', input=short_form(METERS[0]))
    expect('exit status and first line', (status, said.splitlines()[0]), (OUTPUT_FAILED, 'standard output: Bad file descriptor'))


def failed_input():
    """A read error has its status and message: a directory, an input that was never open, and a connection that breaks off."""
    folder = os.open('/', os.O_RDONLY)
    status, output, said = completed(stdin=folder)
    os.close(folder)
    expect('a directory', (status, output, said.splitlines()[:1]), (INPUT_FAILED, b'', ['standard input: Is a directory']))
    status, _, said = completed('-c', 'exec "$0" "$1" <&-', PROGRAM, TABLE, program='/bin/sh')
    expect('no input', (status, said.splitlines()[:1]), (INPUT_FAILED, ['standard input: Bad file descriptor']))
    ours, theirs = socket.socketpair()
    with ours, theirs, running(stdin=theirs) as process:
        ours.sendall(b''.join(frame_of(meter) for meter in METERS) + b'\x0d\x14')
        expect_frames(process, METERS)
        theirs.sendall(b'never read, so that the connection is reset')
        ours.close()
        said = expect_end(process, INPUT_FAILED)
        expect('a reset', said.splitlines()[0], 'standard input: Connection reset by peer')
        require(summary_line(said).endswith('held 2'), said)


def refused_tables():
    """The program does not start with a table that cannot be read: a directory, no file, an error in the middle of the file."""
    good = short_form(METERS[0])
    with tempfile.TemporaryDirectory() as folder:
        expect('a directory', completed(folder, input=good), (NOT_STARTED, b'', f'{folder}: Is a directory\n'))
        missing = os.path.join(folder, 'missing')
        expect('no file', completed(missing, input=good), (NOT_STARTED, b'', f'{missing}: No such file or directory\n'))
    got = completed(program=FAULTY, input=good, env={'TABLE_FAULT': '1'})
    expect('an error in the middle', got, (NOT_STARTED, b'', f'{TABLE}: Input/output error\n'))
    expect('an empty file', completed('/dev/null', input=good)[:2], (0, good))


def message_numbers():
    """The message number is 0 to 15 in decimal digits; the program does not start with any other word."""
    for word in ('abc', '', '16', '-1', '+1', ' 1', '1 ', '1x', '0x1', '1.0', '159', '99999999999999999999', '18446744073709551616'):
        status, output, said = completed(TABLE, word, input=short_form(METERS[0]))
        expect(f'number "{word}"', (status, output, said), (NOT_STARTED, b'', f'message number "{word}": not 0 to 15 in decimal digits\n'))
    for word in ('0', '1', '9', '15', '015'):
        expect(f'number {word}', completed(TABLE, word)[0], 0)
    for arguments in ([TABLE, '0', '0'], [TABLE, '0', '--help']):
        status, output, said = completed(*arguments)
        expect(f'arguments {arguments}', (status, output, said[:6]), (NOT_STARTED, b'', 'usage:'))


def help_text():
    """--help goes to standard output, with status 0, and is written or fails like other output."""
    status, output, said = completed('--help')
    expect('status and standard error', (status, said), (0, ''))
    for part in (b'usage: concentrator TABLE-FILE [MESSAGE-NUMBER]', b'SIGUSR1', b'Exit status: 0', b'held'):
        require(part in output, f'{part!r} is not in the text')
    with open('/dev/full', 'wb') as full:
        expect('status on a full disk', completed('--help', stdout=full)[0], OUTPUT_FAILED)


def bad_standard_error():
    """A standard error that is full, closed or fails does not stop the program or hold frames back."""
    frames = b''.join(REFUSED_FRAME + frame_of(meter) for meter in METERS)
    wanted = b''.join(short_form(meter) for meter in METERS)
    reader, writer = os.pipe()
    os.set_blocking(writer, False)
    with contextlib.suppress(BlockingIOError):
        while True:
            os.write(writer, b'-' * 4096)
    os.set_blocking(writer, True)
    with running(stderr=writer) as process:
        process.stdin.write(frames)
        expect_frames(process, METERS)
        process.stdin.close()
        expect('exit status, full pipe', process.wait(TIMEOUT), 0)
    os.close(reader)
    expect('no reader', completed(input=frames, stderr=writer), (0, wanted, ''))
    os.close(writer)
    with open('/dev/full', 'wb') as full:
        expect('full disk', completed(input=frames, stderr=full), (0, wanted, ''))
    closed = completed('-c', 'exec "$0" "$1" 2>&-', PROGRAM, TABLE, program='/bin/sh', input=frames)
    expect('closed', closed, (0, wanted, ''))


def failing_calls():
    """With the stand-ins, calls are interrupted, find nothing, or move three octets; all frames come out all the same."""
    meters = METERS[:20]
    frames = b''.join(REFUSED_FRAME + frame_of(meter) for meter in meters)
    status, output, said = completed(program=FAULTY, input=frames)
    expect('status and output', (status, output), (0, b''.join(short_form(meter) for meter in meters)))
    expect('standard error', said, completed(input=frames)[2])
    require(SUMMARY.search(said), f'no summary in {said!r}')


# The noise. The framing is described here a second time, without the library.

LIMIT = 65536
WIDTHS = {0xfc: 1, 0xfd: 2, 0xfe: 4, 0xff: 8}


def boundaries(stream):
    """Returns a dictionary from the place of each whole frame to the start and the end of its message, the places of the octets that are
    skipped, and the place of the frame that the end cuts, which is the length of the stream if there is none."""
    frames, skipped, place = {}, [], 0
    while place < len(stream):
        width = WIDTHS.get(stream[place], 0)
        start = place + 1 + width
        size = int.from_bytes(stream[place + 1:start], 'big') if width else stream[place]
        if start <= len(stream) and size > LIMIT:
            skipped.append(place)
            place += 1
        elif start + size <= len(stream):
            frames[place] = start, start + size
            place = start + size
        else:
            break
    return frames, skipped, place


def noise(source, length):
    """Octets of one of four kinds: any octets, mostly ff, text, or mostly small numbers."""
    kind = source.randrange(4)
    octets = source.randbytes(length)
    if kind == 1:
        return bytes(octet | 0xfe for octet in octets)
    if kind == 2:
        return bytes(0x20 + octet % 0x5f for octet in octets)
    if kind == 3:
        return bytes(octet & 0x1f for octet in octets)
    return octets


def noisy_stream(seed):
    """Returns at least ten million octets of noise with good frames in between, the place, the message's start, the end and the meter of
    each good frame, and the count of the octets of noise. From 1 to 60 good frames follow each piece of noise."""
    source, parts, good, length, noisy, meter = random.Random(seed), [], [], 0, 0, 0x40000000
    while noisy < 10_000_000:
        parts.append(noise(source, source.randrange(20000)))
        noisy += len(parts[-1])
        length += len(parts[-1])
        for _ in range(source.randrange(1, 61)):
            parts.append(frame_of(meter))
            start = length + (3 if parts[-1][0] == 0xfd else 1)
            good.append((length, start, length + len(parts[-1]), meter))
            length += len(parts[-1])
            meter += 1
    return b''.join(parts), good, noisy


def expect_reports(said, frames, skipped, cut, length):
    """The counts are those of the model; each report is at a boundary; and every report is written or counted as left out."""
    counts = [int(count or 0) for count in SUMMARY.search(said).groups()]
    expect('frames, octets in, octets skipped and held', [counts[i] for i in (0, 3, 5, 7)],
           [len(frames), sum(end - place for place, (_, end) in frames.items()), len(skipped) + length - cut, 0])
    expect('passed on and refused', counts[1] + counts[2], counts[0])
    expect('sum of the refusals', sum(int(count) for _, count in KIND.findall(said)), counts[2])
    reports = REPORT.findall(said)
    others = {*skipped, cut}
    for what, place, _ in reports:
        require(int(place) in (others if what == 'frame' else frames), f'{what} at {place} is at no boundary')
    left_out = sum(int(count) for count in LEFT_OUT.findall(said))
    expect('reports', len(reports) + left_out, counts[2] + len(skipped) + (cut < length))
    return counts


def ten_million_octets_of_noise():
    """Each good frame that stands at a boundary comes out, in order, and no other good frame; the reports stay short.

    The last octet of a longer prefix is a prefix for the same message. So a good frame also comes out if that octet is at a boundary:
    what counts is that its message is the message of a frame."""
    stream, good, noisy = noisy_stream(1)
    frames, skipped, cut = boundaries(stream)
    messages = set(frames.values())
    wanted = [short_form(meter) for _, start, end, meter in good if (start, end) in messages]
    at_boundary = sum(place in frames for place, _, _, _ in good)
    swallowed = len(good) - len(wanted)
    require(noisy >= 10_000_000 and at_boundary > 5000 and swallowed > 1000, f'a weak test: {noisy}, {at_boundary}, {swallowed}')
    status, output, said = completed(input=stream)
    expect('exit status', status, 0)
    require(len(said) < 100_000, f'{len(said)} octets of reports')
    written, skips, end = boundaries(output)
    expect('output that is no frame', (skips, end), ([], len(output)))
    known = {short_form(meter) for _, _, _, meter in good}
    got = [frame for frame in (output[place:end] for place, (_, end) in written.items()) if frame in known]
    require(got == wanted, f'{len(got)} good frames came out, not the {len(wanted)} expected')
    counts = expect_reports(said, frames, skipped, cut, len(stream))
    expect('passed on, octets out', [counts[1], counts[4]], [len(written), len(output)])
    print(f'streams: noise: {noisy} octets and {len(good)} good frames; {at_boundary} at a boundary, and all came out; '
          f'{len(wanted) - at_boundary} with the last octet of the prefix at a boundary came out; {swallowed} inside false frames; '
          f'{len(said)} octets of reports')


TESTS = (open_pipe, largest_frames, octet_by_octet, non_blocking_input, non_blocking_output, summary_on_signal, summary_when_busy,
         full_disk, closed_output, failed_input, refused_tables, message_numbers, help_text, bad_standard_error, failing_calls,
         ten_million_octets_of_noise)


def run(test):
    """Returns whether a test passes; prints a line if not."""
    try:
        test()
    except Exception as error:
        print(f'streams: {test.__name__} FAILED: {type(error).__name__}: {error}')
        return False
    return True


def main():
    names = sys.argv[4:]
    unknown = set(names) - {test.__name__ for test in TESTS}
    if unknown:
        sys.exit(f'streams: no such test: {unknown}')
    passed = [run(test) for test in TESTS if not names or test.__name__ in names]
    print(f'streams: {sum(passed)} of {len(passed)} tests passed')
    sys.exit(0 if passed and all(passed) else 1)


main()
