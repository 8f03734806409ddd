"""A program of this workspace, fed and judged: what tests/slip and tests/report share."""
import fcntl
import os
import pathlib
import struct
import subprocess
import sys
import termios

ROOT = pathlib.Path(__file__).resolve().parent.parent
results = []


def build(name):
    """Proves and builds a program; where it lies."""
    done = subprocess.run(['tools/build', name], cwd=ROOT, stdout=subprocess.PIPE, stderr=subprocess.STDOUT)
    if done.returncode:
        sys.exit(done.stdout.decode('utf-8', 'replace')[-2000:])
    return ROOT / 'target' / 'bin' / name


def tell(name, right, expected, found):
    results.append(right)
    print('%s %s: expected %s%s' % ('ok   ' if right else 'WRONG', name, expected, '' if right else '; found ' + found))


def finish():
    print('%d passed, %d failed' % (results.count(True), results.count(False)))
    sys.exit(0 if all(results) else 1)


def start(path):
    return subprocess.Popen([path], stdin=subprocess.PIPE, stdout=subprocess.PIPE, bufsize=0)


def feed(program, data):
    """Puts data into the program's pipe, and waits until it was read."""
    os.write(program.stdin.fileno(), data)
    while program.poll() is None and struct.unpack('i', fcntl.ioctl(program.stdin.fileno(), termios.FIONREAD, b'\0\0\0\0'))[0]:
        pass


def in_reads(path, data, sizes):
    """What a program answers to an input that comes in reads of these sizes."""
    program, place = start(path), 0
    for size in sizes:
        if place >= len(data) or program.poll() is not None:
            break
        feed(program, data[place:place + size])
        place += size
    return program.communicate()[0]


def compare(path, name, data, expected_text, expected):
    """A whole input, and all that the program answers."""
    done = subprocess.run([path], input=data, stdout=subprocess.PIPE, timeout=60)
    place = next((i for i, (a, b) in enumerate(zip(done.stdout, expected)) if a != b), min(len(done.stdout), len(expected)))
    tell(name, done.stdout == expected and done.returncode == 0, expected_text,
         'status %d, %d bytes that differ at %d: %r' % (done.returncode, len(done.stdout), place, done.stdout[place:place + 60]))


def broken_ends(path, data):
    """What no contract can say: an output that is closed or that nobody reads, an input that cannot be read."""
    done = subprocess.run(['sh', '-c', 'exec "$0" >&-', path], input=data, stdout=subprocess.PIPE, timeout=5)
    tell('a closed output', done.stdout == b'' and done.returncode == 0, 'that it stops at once', 'status %d' % done.returncode)
    program = start(path)
    program.stdout.close()
    try:
        program.stdin.write(data)
        program.stdin.close()
    except BrokenPipeError:
        pass
    status = program.wait(60)
    tell('an output that nobody reads', status in (0, -13), 'that it stops', 'status %d' % status)
    done = subprocess.run([path], stdin=os.open(ROOT, os.O_RDONLY), stdout=subprocess.PIPE, timeout=60)
    tell('an input that cannot be read', done.stdout == b'' and done.returncode == 0, 'that nothing is written', '%r' % done.stdout)
