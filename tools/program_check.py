"""What tools/check_entity, check_reasons and check_repair share: a program of crates/ is run on fixed and on random inputs, through pipes, in pieces and
from files, and what it prints is compared, byte for byte, with a model."""
import argparse
import os
import random
import subprocess
import sys
import tempfile
import time

ROOT = os.path.dirname(os.path.dirname(os.path.abspath(__file__)))


def count(word):
    """Returns a number of 0 or more, from the command line."""
    if not word.isdecimal():
        raise argparse.ArgumentTypeError('%r is no number' % word)
    return int(word)


def options(tool, doc):
    """Returns the options of the command line; a wrong one ends the run with status 2."""
    usage = argparse.ArgumentParser(prog=tool, description=doc, formatter_class=argparse.RawDescriptionHelpFormatter)
    usage.add_argument('--random', type=count, default=400, metavar='N', help='how many random inputs come after the fixed ones (400)')
    usage.add_argument('--seed', type=count, default=1, metavar='N', help='what starts the random inputs (1)')
    return usage.parse_args()


def command(tool, program):
    """Returns the words that run a program that rt has built; ends the run with status 2 where it cannot be run."""
    path = os.path.join(ROOT, 'crates', program, 'out', program)
    if not os.path.exists(path):
        print('%s: crates/%s/out/%s is not there: `tools/run --prove %s` proves and builds it' % (tool, program, program, program), file=sys.stderr)
        sys.exit(2)
    ran = subprocess.run([os.path.join(ROOT, 'tools', 'run'), '--words'], stdout=subprocess.PIPE)
    if ran.returncode != 0:
        sys.exit(2)
    return ran.stdout.decode().split() + [path]


def through_a_pipe(command, data):
    return ended(subprocess.run(command, input=data, stdout=subprocess.PIPE))


def ended(ran):
    """Returns what a run wrote, or its exit status, which is to be 0."""
    return ran.stdout if ran.returncode == 0 else b'exit status %d' % ran.returncode


def in_pieces(command, pieces):
    """Writes each piece by itself, a moment apart; a writer that is cut off raises BrokenPipeError."""
    p = subprocess.Popen(command, stdin=subprocess.PIPE, stdout=subprocess.PIPE)
    for piece in pieces:
        p.stdin.write(piece)
        p.stdin.flush()
        time.sleep(0.02)
    p.stdin.close()
    out = p.stdout.read()
    return out if p.wait() == 0 else b'exit status %d' % p.returncode


def from_a_file(command, data):
    with tempfile.TemporaryFile() as f:
        f.write(data)
        f.seek(0)
        return ended(subprocess.run(command, stdin=f, stdout=subprocess.PIPE))


class Tally:
    """How many inputs ran and how many differ. Each that differs is printed, and every few seconds how far the run is."""

    def __init__(self, tool):
        self.tool, self.ran, self.differing, self.said = tool, 0, 0, time.monotonic()

    def compare(self, label, data, got, expected):
        self.ran += 1
        if got != expected:
            self.differing += 1
            print('%s: %r...\n  prints   %r\n  expected %r' % (label, data[:120], got[:200], expected[:200]), flush=True)
        if time.monotonic() - self.said > 3:
            self.said = time.monotonic()
            print('%d so far, %d differ' % (self.ran, self.differing), flush=True)

    def finish(self):
        print('%s: %d inputs, %d differ' % (self.tool, self.ran, self.differing))
        sys.exit(1 if self.differing else 0)


def run(program, doc, fixed, at_random, model, starts=(), limit=0):
    """The whole check of a program. `starts` are inputs that go on for 32 MB, of which the model sees `limit` bytes and one more."""
    tool = 'tools/check_' + program
    chosen = options(tool, doc)
    words, rng, tally, steady = command(tool, program), random.Random(chosen.seed), Tally(tool), list(fixed())
    print('%d fixed inputs through a pipe, %d random ones through pipes, in pieces and from files' % (len(steady), chosen.random), flush=True)
    for data in steady:
        tally.compare('fixed', data, through_a_pipe(words, data), model(data))
    for n in range(chosen.random):
        data = at_random(rng)
        if n % 10 == 0:
            cuts = sorted(rng.randrange(len(data) + 1) for _ in range(3))
            got = in_pieces(words, [data[a:b] for a, b in zip([0] + cuts, cuts + [len(data)])])
        else:
            got = (from_a_file if n % 10 == 1 else through_a_pipe)(words, data)
        tally.compare('random', data, got, model(data))
    if starts:
        print('32 MB through a pipe and from a file; an input that cannot be read, and an output that cannot be written', flush=True)
    for start in starts:
        huge, expected = [start] + [bytes(1 << 20)] * 32, model(start + bytes(limit + 1))
        try:
            tally.compare('huge', start, in_pieces(words, huge), expected)
        except BrokenPipeError:
            tally.compare('huge', start, b'the writer was cut off', expected)
        tally.compare('huge file', start, from_a_file(words, b''.join(huge)), expected)
    if starts:
        folder = os.open(ROOT, os.O_RDONLY)
        p = subprocess.run(words, stdin=folder, stdout=subprocess.PIPE, stderr=subprocess.PIPE)
        tally.compare('a folder', b'', (p.stdout, p.returncode, p.stderr.startswith(b'Error: ')), (b'', 1, True))
        with open('/dev/full', 'wb') as full:
            p = subprocess.run(words, input=starts[0], stdout=full, stderr=subprocess.PIPE)
        tally.compare('a full disk', starts[0], (p.returncode, p.stderr.startswith(b'Error: ')), (1, True))
    tally.finish()
