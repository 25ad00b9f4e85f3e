"""Measures the program on each stream, beside `cat`: measure.py DIR PROGRAM WORDS...

The best of five runs counts. Time and memory are those of the program alone; memory is the most that
was resident, asked of the kernel while the program runs.
"""

import os
import subprocess
import sys
import threading
import time

import streams

RUNS = 5
ASKED_EVERY = 0.005


class Memory(threading.Thread):
    """Asks for a process's peak memory until it has ended. The last answer is kept: it is that of
    the program, and not of what called it."""

    def __init__(self, process):
        super().__init__()
        self.path = '/proc/%d/status' % process
        self.kilobytes = 0
        self.ended = threading.Event()

    def run(self):
        while not self.ended.wait(ASKED_EVERY):
            try:
                with open(self.path) as file:
                    lines = file.read().splitlines()
            except OSError:
                return
            for line in lines:
                if line.startswith('VmHWM:'):
                    self.kilobytes = int(line.split()[1])


def wait_for(process):
    """The status, and what the process used."""
    _, status, usage = os.wait4(process.pid, 0)
    process.returncode = os.waitstatus_to_exitcode(status)
    return process.returncode, usage


def run_once(words, path, piped):
    """Seconds, user and system seconds, and peak memory in kilobytes, of one run."""
    begin = time.perf_counter()
    with open(path, 'rb') as file:
        if piped:
            first = subprocess.Popen(['cat'], stdin=file, stdout=subprocess.PIPE)
            measured = subprocess.Popen(words, stdin=first.stdout, stdout=subprocess.PIPE)
            last = subprocess.Popen(['cat'], stdin=measured.stdout, stdout=subprocess.DEVNULL)
            first.stdout.close()
            measured.stdout.close()
        else:
            measured = subprocess.Popen(words, stdin=file, stdout=subprocess.DEVNULL)
        memory = Memory(measured.pid)
        memory.start()
        status, usage = wait_for(measured)
        if piped:
            first.wait()
            last.wait()
    seconds = time.perf_counter() - begin
    memory.ended.set()
    memory.join()
    if status != 0:
        sys.exit('bench: %s ended with status %d on %s' % (' '.join(words), status, os.path.basename(path)))
    return seconds, usage.ru_utime, usage.ru_stime, memory.kilobytes


def best(words, path, piped):
    """The quickest run, with the most memory of any."""
    runs = [run_once(words, path, piped) for _ in range(RUNS)]
    return min(runs)[:3] + (max(run[3] for run in runs),)


def main():
    folder, program, words = sys.argv[1], sys.argv[2], sys.argv[3:]
    print('| Stream | MB | Way | `feksroum %s` MB/s | `cat` MB/s | of `cat` | user s | system s | peak MB |'
          % ' '.join(words))
    print('|---|---|---|---|---|---|---|---|---|')
    for name in streams.STREAMS:
        path = streams.path_of(folder, name)
        megabytes = os.path.getsize(path) / 1_000_000
        for way, piped in (('file to /dev/null', False), ('pipe to pipe', True)):
            seconds, user, system, kilobytes = best([program] + words, path, piped)
            copied = best(['cat'], path, piped)[0]
            print('| %s | %.0f | %s | %.0f | %.0f | %.0f %% | %.2f | %.2f | %.1f |' % (
                name, megabytes, way, megabytes / seconds, megabytes / copied, 100 * copied / seconds,
                user, system, kilobytes * 1024 / 1_000_000), flush=True)


if __name__ == '__main__':
    main()
