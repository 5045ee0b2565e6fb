"""What the checks beside outside programs share: a program or a package that is missing is fetched from Debian's packages, with a word about it; a command that
takes long is told of every ten seconds; and what cannot be had ends the check with status 2 and the reason."""
import glob
import os
import shutil
import subprocess
import sys
import time

TOOL = 'tools/' + os.path.basename(sys.argv[0])


def say(words):
    print('%s: %s' % (TOOL, words), file=sys.stderr, flush=True)


def stop(why):
    say(why)
    sys.exit(2)


def run(*words, input=None, **options):
    """Runs a program that has to succeed, and returns what it prints."""
    began = time.monotonic()
    try:
        process = subprocess.Popen(words, stdin=subprocess.DEVNULL if input is None else subprocess.PIPE, stdout=subprocess.PIPE, stderr=subprocess.PIPE, text=True,
                                   **options)
    except OSError as error:
        stop('%s cannot be run: %s' % (words[0], error.strerror))
    while True:
        try:
            printed, complaints = process.communicate(input, timeout=10)
            break
        except subprocess.TimeoutExpired:
            input = None
            print('  .. %d s' % (time.monotonic() - began), file=sys.stderr, flush=True)
    if process.returncode != 0:
        stop('%s failed:\n%s' % (' '.join(words)[:200], (printed + complaints)[-1000:].strip()))
    return printed


def apt_get(*words, **options):
    run('apt-get', *words, env=dict(os.environ, DEBIAN_FRONTEND='noninteractive'), **options)


def need(command, *packages):
    """Installs Debian packages where a command is missing."""
    if shutil.which(command):
        return
    named = 'the Debian package%s %s' % ('s' if len(packages) > 1 else '', ' '.join(packages))
    if not shutil.which('apt-get'):
        stop('%s is missing, and so is apt-get, which would install %s' % (command, named))
    if os.getuid() != 0:
        stop('%s is missing: run %s as root, or install %s' % (command, TOOL, named))
    say('installing ' + named)
    apt_get('update', '-qq')
    apt_get('install', '-y', '-qq', '--no-install-recommends', *packages)


def unpack(folder, packages):
    """Downloads Debian packages and unpacks them in a folder, where this was not done before. They are not installed."""
    mark, done = os.path.join(folder, 'unpacked'), '\n'.join(packages) + '\n'
    if os.path.exists(mark) and open(mark, encoding='utf-8').read() == done:
        return
    if not shutil.which('apt-get'):
        stop('apt-get is missing, which would download the Debian packages ' + ' '.join(packages))
    say('downloading the Debian packages ' + ' '.join(packages))
    os.makedirs(folder, exist_ok=True)
    if os.getuid() == 0:
        apt_get('update', '-qq')
    apt_get('download', '-qq', *packages, cwd=folder)
    for package in glob.glob(os.path.join(folder, '*.deb')):
        run('dpkg', '-x', package, folder)
        os.remove(package)
    with open(mark, 'w', encoding='utf-8') as file:
        file.write(done)
