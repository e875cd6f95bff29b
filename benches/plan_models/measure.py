"""Runs of a program, for the scripts of this folder."""
import os
import re
import resource
import subprocess
import sys
import tempfile
import time

LIMIT = 300       # seconds for one run
MEMORY = 6 << 30   # bytes of address space for one run
HERE = os.path.dirname(os.path.abspath(__file__))
PROGRAMS = ('crates/comet_main/out/comet_main', 'bin/comet-x86_64-linux')


def built():
    """What was built here, else the one that the repository has."""
    for name in PROGRAMS:
        path = os.path.join(HERE, '..', '..', name)
        if os.path.exists(path):
            return os.path.abspath(path)
    sys.exit('no program: build it, or name one')


class Run:
    """One run: its status, what it printed and said, its seconds of the processor and its most memory in MB. The memory is
    looked at each hundredth of a second, since what the system tells at the end counts this script, too.
    """

    def __init__(self, program, text, data=None, words=(), before=()):
        with tempfile.TemporaryDirectory() as folder:
            command = [*before, program, *words]
            if data is not None:
                given = os.path.join(folder, 'data')
                open(given, 'w').write(data)
                command += ['--data', given]
            source = os.path.join(folder, 'p.comet')
            open(source, 'w').write(text)
            with open(os.path.join(folder, 'out'), 'w+') as out, open(os.path.join(folder, 'err'), 'w+') as err:
                child = subprocess.Popen(command + [source], stdout=out, stderr=err, preexec_fn=None if before else limited)
                begun, self.memory = time.monotonic(), 0
                while True:
                    ended, status, used = os.wait4(child.pid, os.WNOHANG)
                    if ended:
                        break
                    self.memory = max(self.memory, memory_of(child.pid))
                    if time.monotonic() - begun > LIMIT and not before:
                        child.kill()
                        time.sleep(1)
                    time.sleep(0.01)
                child.returncode = self.status = os.waitstatus_to_exitcode(status)
                out.seek(0)
                err.seek(0)
                self.printed, self.said = out.read(), err.read().strip()
        self.seconds = used.ru_utime + used.ru_stime
        if self.status:
            late = time.monotonic() - begun > LIMIT
            self.said = 'stopped after %d s' % LIMIT if late else self.said or 'status %d' % self.status


def limited():
    resource.setrlimit(resource.RLIMIT_AS, (MEMORY, MEMORY))


def memory_of(process):
    try:
        found = re.search(r'VmHWM:\s*(\d+) kB', open('/proc/%d/status' % process).read())
        return int(found[1]) / 1024 if found else 0
    except OSError:
        return 0


def closing(program, start, data=None):
    """The least of three runs of a text without any question, or the run that didn't end well."""
    runs = [Run(program, start, data) for _ in range(3)]
    return runs[0] if runs[0].status else min(runs, key=lambda run: run.seconds)


def each(program, start, closed, body, data=None):
    """Microseconds of the processor for one turn of a loop with this body, behind a start that takes `closed` seconds; or what
    was said where the run didn't end well. The name `u` counts the turns.
    """
    turns = 4
    while True:
        run = Run(program, start + 'forall (u in 1..%d) { %s }\n' % (turns, body), data)
        spent = run.seconds - closed
        if run.status:
            return run.said
        if spent > max(0.2, closed) or turns >= 1000000:
            return '%.2f' % (spent / turns * 1e6)
        turns = min(1000000, max(turns * 4, int(turns * max(0.4, 1.5 * closed) / max(spent, 0.001))))


def instructions(program, text, data=None):
    """The instructions of one run, by valgrind; None where it tells none."""
    words = ['valgrind', '--tool=callgrind', '--callgrind-out-file=/dev/null']
    run = Run(program, text, data, before=words)
    found = re.search(r'Collected : (\d+)', run.said)
    return int(found[1]) if found else None
