"""Runs programs and measures them: least time of several runs, peak memory, instructions."""
import os
import re
import shutil
import signal
import subprocess
import tempfile
import threading
import time

HERE = os.path.dirname(os.path.abspath(__file__))
ROOT = os.path.dirname(HERE)
DVIFLAT = os.path.join(ROOT, 'crates', 'dviflat', 'out', 'dviflat')
TIME = shutil.which('time')


def build():
    """Proves and builds the program where that is still to be done; ends where TeX's programs are missing."""
    for program in ('dvicopy', 'dvitype'):
        if shutil.which(program) is None:
            raise SystemExit(f'{program} is not installed')
    subprocess.run([os.path.join(ROOT, 'dviflat'), 'help'], check=True, stdout=subprocess.DEVNULL)


def dvicopy(source, target):
    return ['dvicopy', source, target]


def dviflat(source, target, options):
    return [DVIFLAT, 'flatten', source, '-o', target, *options]


def environment():
    """dvicopy finds fonts beside the document, and nowhere else."""
    return dict(os.environ, TFMFONTS='.', VFFONTS='.')


class Stopped(Exception):
    """The program ended with another status than 0, or was not done in time."""


def once(command, folder, limit=None):
    """One run: seconds by the clock, seconds of the processor, peak memory in KiB."""
    with tempfile.NamedTemporaryFile('r') as report:
        # what a process has in memory before it becomes the program counts as its own: the small `time` starts it
        words = [TIME, '-f', '%M', '-o', report.name, *command] if TIME else command
        begun = time.perf_counter()
        process = subprocess.Popen(words, cwd=folder, env=environment(), stdin=subprocess.DEVNULL, stdout=subprocess.DEVNULL,
                                   stderr=subprocess.DEVNULL, start_new_session=True)
        late = threading.Timer(limit or 1e6, os.killpg, (process.pid, signal.SIGKILL))
        late.start()
        _, status, used = os.wait4(process.pid, 0)
        seconds = time.perf_counter() - begun
        late.cancel()
        process.returncode = os.waitstatus_to_exitcode(status)
        if limit and seconds >= limit:
            raise Stopped(f'over {limit} s')
        if process.returncode != 0:
            raise Stopped('refused')
        memory = int(report.read().split()[-1]) if TIME else used.ru_maxrss
    return seconds, used.ru_utime + used.ru_stime, memory


def least(commands, folder, times):
    """Runs the commands by turns, so that what else the machine does meets all alike; the least of each number of each."""
    best = [None] * len(commands)
    for _ in range(times):
        for k, command in enumerate(commands):
            now = once(command, folder)
            best[k] = now if best[k] is None else tuple(map(min, best[k], now))
    return best


def instructions(command, folder, keep=None):
    """How many instructions callgrind counts, with its file of functions at `keep`; none where there is no valgrind."""
    if shutil.which('valgrind') is None:
        return None
    with tempfile.TemporaryDirectory() as place:
        file = os.path.join(keep or place, 'callgrind.' + os.path.basename(command[0]))
        subprocess.run(['valgrind', '--tool=callgrind', f'--callgrind-out-file={file}', *command], cwd=folder,
                       env=environment(), stdout=subprocess.DEVNULL, stderr=subprocess.DEVNULL, check=True)
        with open(file) as report:
            return int(re.search(r'^(?:summary|totals): (\d+)', report.read(), re.M)[1])
