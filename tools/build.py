#!/usr/bin/env python3
"""build.py PROGRAM: proves the crates that a program of this repository stands on, and builds it.

`rt` proves crates side by side where it is given a whole repository, and else waits for its other calls in the same one. So
the crates that the program stands on are copied to a folder of their own and proved there; what `rt` keeps of a crate comes
back as soon as that crate is done, with a line on standard error. Then the program is built here, of what came back.
What is proved stays where this is interrupted, and the next call goes on from there. A second call waits for the first.
The status is 0 where the program is built, 70 where it isn't, and 130 after an interrupt."""
import contextlib
import fcntl
import os
import re
import shutil
import signal
import subprocess
import sys
import tempfile
import time

TOP = os.path.dirname(os.path.dirname(os.path.abspath(__file__)))
CRATES = os.path.join(TOP, 'crates')
# What the check of a crate takes of the memory at most, in most cases.
GIGABYTES_A_CHECK = 4
# Below that much disk a build from nothing finds no room.
GIGABYTES_OF_DISK = 3
# A line with which `rt` begins what it says of a crate that is done.
DONE = re.compile(r'== (\w+)\n')


def listed():
    """The crates of crates.txt, each with those of the repository that it uses, and their lines."""
    lines = {}
    with open(os.path.join(TOP, 'crates.txt'), encoding='utf-8') as file:
        for line in file:
            name, colon, uses = line.partition('#')[0].partition(':')
            if colon:
                lines[name.split()[0]] = (uses.split(), line)
    return {name: ([it for it in uses if it in lines], line) for name, (uses, line) in lines.items()}


def below(name, crates):
    """The crates that one is built from, itself the last, each behind those that it uses."""
    order = []

    def visit(it):
        for used in crates[it][0]:
            visit(used)
        if it not in order:
            order.append(it)

    visit(name)
    return order


def side_by_side():
    """How many crates are proved at once: a processor and some memory each."""
    with open('/proc/meminfo', encoding='ascii') as lines:
        free = {name: int(rest.split()[0]) for name, _, rest in (it.partition(':') for it in lines)}
    return max(1, min(len(os.sched_getaffinity(0)), free['MemAvailable'] // (GIGABYTES_A_CHECK << 20)))


def linked(source, target):
    """A file in two places, or a copy of it where they aren't on one disk."""
    try:
        os.link(source, target)
    except OSError:
        shutil.copy2(source, target)


@contextlib.contextmanager
def alone_in(folder):
    """While no call of `rt` works in a crate's folder."""
    lock = os.open(folder, os.O_RDONLY)
    try:
        fcntl.flock(lock, fcntl.LOCK_EX)
        yield
    finally:
        os.close(lock)


def bring(source, target):
    """Puts what `rt` keeps of a crate into its folder elsewhere, in place of what is there."""
    shutil.rmtree(os.path.join(target, 'out'), ignore_errors=True)
    if os.path.isdir(os.path.join(source, 'out')):
        shutil.copytree(os.path.join(source, 'out'), os.path.join(target, 'out'), symlinks=True, copy_function=linked)


class Build:
    def __init__(self, program):
        self.program = program
        self.crates = listed()
        self.order = below(program, self.crates)
        self.out = os.path.join(CRATES, program, 'out')
        self.made = os.path.join(self.out, program)
        self.begun = time.time()
        self.at_once = side_by_side()
        self.aside = None
        self.running = None

    def say(self, text):
        print(f'{self.program}: {text}', file=sys.stderr, flush=True)

    def time(self):
        seconds = int(time.time() - self.begun)
        return f'{seconds // 60} min {seconds % 60:02} s' if seconds >= 60 else f'{seconds} s'

    def is_built(self):
        """As in program.sh: it was built whole, and none of its sources is newer."""
        if not os.access(self.made, os.X_OK) or os.path.exists(f'{self.made}.building'):
            return False
        then = os.stat(self.made).st_mtime
        if os.stat(os.path.join(TOP, 'crates.txt')).st_mtime > then:
            return False
        for crate in self.order:
            for at, folders, files in os.walk(os.path.join(CRATES, crate)):
                folders[:] = [it for it in folders if it not in ('out', 'must-fail')]
                if any(os.stat(os.path.join(at, it)).st_mtime > then for it in folders + files):
                    return False
        return True

    def copied(self):
        """A folder with the crates that the program stands on, and what is kept of them."""
        self.aside = tempfile.mkdtemp(prefix=f'{self.program}-')
        with open(os.path.join(self.aside, 'crates.txt'), 'w', encoding='utf-8') as file:
            file.writelines(self.crates[it][1] for it in self.order)
        for crate in self.order:
            for part in ('src', 'specs', 'proofs'):
                if os.path.isdir(os.path.join(CRATES, crate, part)):
                    shutil.copytree(os.path.join(CRATES, crate, part), os.path.join(self.aside, 'crates', crate, part))
            with alone_in(os.path.join(CRATES, crate)):
                bring(os.path.join(CRATES, crate), os.path.join(self.aside, 'crates', crate))
        return self.aside

    def prove(self):
        """Proves the crates side by side. The lines that `rt` wrote where one failed, else nothing."""
        words = ['rt', 'all', 'check', '--jobs', str(self.at_once)]
        self.running = subprocess.Popen(words, cwd=self.copied(), stdin=subprocess.DEVNULL, stdout=subprocess.PIPE,
                                        stderr=subprocess.STDOUT, text=True, errors='replace', start_new_session=True)
        lines, done = [], 0
        for line in self.running.stdout:
            lines.append(line)
            crate = DONE.fullmatch(line)
            if crate and crate[1] in self.order:
                with alone_in(os.path.join(CRATES, crate[1])):
                    bring(os.path.join(self.aside, 'crates', crate[1]), os.path.join(CRATES, crate[1]))
                done += 1
                self.say(f'{done} of {len(self.order)}: {crate[1]}, after {self.time()}')
        return lines if self.running.wait() else []

    def compiled(self):
        """Builds the program of what was proved. The lines that `rt` wrote where that failed, else nothing."""
        self.running = subprocess.Popen(['rt', 'run', '--'], cwd=os.path.join(CRATES, self.program), stdin=subprocess.DEVNULL,
                                        stdout=subprocess.PIPE, stderr=subprocess.STDOUT, text=True, errors='replace',
                                        start_new_session=True)
        lines = self.running.communicate()[0].splitlines(True)
        # (it is run without words, and ends with the status of a call without words)
        return [] if os.access(self.made, os.X_OK) else lines

    def stop(self):
        """Ends what runs, and removes the copy."""
        if self.running and self.running.poll() is None:
            try:
                os.killpg(self.running.pid, signal.SIGKILL)
            except ProcessLookupError:
                pass
        if self.aside:
            shutil.rmtree(self.aside, ignore_errors=True)

    def tell_failure(self, lines):
        with tempfile.NamedTemporaryFile('w', prefix=f'{self.program}-', suffix='.log', delete=False, encoding='utf-8') as log:
            log.writelines(lines)
        sys.stderr.writelines(lines[-20:])
        if shutil.disk_usage(TOP).free < 100_000_000:
            self.say('the disk is full')
        self.say(f"the program isn't proved, so it isn't built; all that rt said is in {log.name}")

    def build(self):
        if not os.access(os.path.join(CRATES, self.program), os.W_OK):
            self.say(f"it has to be built, and the folder can't be written: {CRATES}")
            return 70
        if os.path.exists(self.made):
            self.say('its sources have changed, so the program that was built before is removed')
            os.remove(self.made)
        if shutil.disk_usage(TOP).free < GIGABYTES_OF_DISK << 30:
            self.say(f'less than {GIGABYTES_OF_DISK} GB of the disk are free, which may not be enough')
        self.say(f'proving and building it first, {self.at_once} crates at a time; a first time takes an hour of one '
                 f'processor')
        lines = self.prove()
        if not lines:
            os.makedirs(self.out, exist_ok=True)
            with open(f'{self.made}.building', 'wb'):
                pass
            lines = self.compiled()
        self.stop()
        if lines:
            self.tell_failure(lines)
            return 70
        # A source that was changed meanwhile is newer than that.
        os.utime(self.made, (self.begun, self.begun))
        with open(f'{self.made}.crates', 'w', encoding='utf-8') as file:
            file.writelines(f'crates/{it}\n' for it in self.order)
        os.remove(f'{self.made}.building')
        self.say(f'proved and built in {self.time()}')
        return 0


def interrupted(number, frame):
    raise KeyboardInterrupt


def main():
    program = sys.argv[1]
    signal.signal(signal.SIGTERM, interrupted)
    # The lock is on the folder, so that nothing is left of it.
    lock = os.open(CRATES, os.O_RDONLY)
    try:
        fcntl.flock(lock, fcntl.LOCK_EX | fcntl.LOCK_NB)
    except BlockingIOError:
        print(f'{program}: another call builds here, and this one waits for it', file=sys.stderr, flush=True)
        fcntl.flock(lock, fcntl.LOCK_EX)
    build = Build(program)
    if build.is_built():
        return 0
    try:
        return build.build()
    except KeyboardInterrupt:
        build.stop()
        build.say('stopped; what is proved stays, and the next call goes on from there')
        return 130
    except OSError as error:
        build.stop()
        build.say(f"the program isn't built: {error.filename or TOP}: {error.strerror}")
        return 70


if __name__ == '__main__':
    sys.exit(main())
