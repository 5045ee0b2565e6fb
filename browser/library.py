"""The library's calls, made through the program calls.c."""
import os
import struct
import subprocess
import sys

CONTEXTS = ['text_minimal', 'text', 'double_quoted', 'single_quoted', 'quoted', 'safe', 'unquoted', 'script_single', 'script_double', 'script_quoted',
            'style_single', 'style_double', 'style_quoted', 'script_raw', 'json', 'ascii_quoted']
OPERATIONS = ['encode', 'decode', 'take', 'browse', 'closing_tag']


class Library:
    """`command` is the program with the words before it that run it here."""
    def __init__(self, command):
        self.command = command

    def call(self, operation, context, texts):
        """The results of one operation in one context for a list of byte strings; None for each that is refused."""
        return [None if status else result for status, result in self.answers(operation, context, texts)]

    def answers(self, operation, context, texts):
        """The status and the result of one operation in one context for each of a list of byte strings."""
        head = bytes([OPERATIONS.index(operation), CONTEXTS.index(context)])
        requests = b''.join(head + struct.pack('<I', len(text)) + text for text in texts)
        ran = subprocess.run(self.command, input=requests, stdout=subprocess.PIPE, check=False)
        results, at = [], 0
        while at + 5 <= len(ran.stdout):
            status, length = struct.unpack_from('<BI', ran.stdout, at)
            results.append((status, ran.stdout[at + 5:at + 5 + length]))
            at += 5 + length
        if ran.returncode != 0 or at != len(ran.stdout) or len(results) != len(texts):
            print('%s ended with status %d after %d of %d answers' % (self.command[-1], ran.returncode, len(results), len(texts)), file=sys.stderr)
            sys.exit(2)
        return results

    def closings(self, texts):
        """The place where each byte string ends as the text of a script element, None where it does not."""
        results = self.call('closing_tag', 'script_raw', texts)
        if None in results:
            print('%s refuses a text' % self.command[-1], file=sys.stderr)
            sys.exit(2)
        return [struct.unpack('<I', result)[0] if result else None for result in results]


def linked(work):
    """Returns the calls of this machine's archive: builds calls.c in a folder. Ends the program with status 2 where that fails."""
    root = os.path.dirname(os.path.dirname(os.path.abspath(__file__)))
    os.makedirs(work, exist_ok=True)
    program = os.path.join(work, 'calls')
    made = subprocess.run([os.path.join(root, 'tools', 'archive')], stdout=subprocess.PIPE, text=True)
    if made.returncode != 0:
        sys.exit(2)
    archive = os.path.join(made.stdout.strip(), 'liblintelrye_c.a')
    try:
        built = subprocess.run(['cc', '-O2', '-static', '-I', os.path.join(root, 'include'), '-o', program, os.path.join(root, 'browser', 'calls.c'), archive])
    except OSError as error:
        print('browser/calls.c cannot be compiled: %s' % error, file=sys.stderr)
        sys.exit(2)
    if built.returncode != 0:
        sys.exit(2)
    return Library([program])
