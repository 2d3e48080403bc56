"""Runs a command, and tells how long it took and how much memory all its processes held together.

Memory is looked at once a second, and less often where a look takes long, so that all looks take
at most a twentieth of one processor's time: what the command and all that it has started hold,
pages that several share counted once. The line stands on standard error when the command has
ended; the exit status is the command's.

    dev/measure_run ./demo
    RT_JOBS=2 dev/measure_run taskset -c 0,1 dev/build
"""
from __future__ import annotations

import argparse
import resource
import signal
import subprocess
import sys
import time

from dev.processes import family, resident_bytes

#: How often as long as a look takes it is waited for the next one.
REST = 20


def main(words: list[str]) -> int:
    formatter = argparse.RawDescriptionHelpFormatter
    parser = argparse.ArgumentParser(description=__doc__, formatter_class=formatter)
    parser.add_argument("--every", type=float, default=1.0, help="seconds between two looks (1)")
    parser.add_argument("command", nargs=argparse.REMAINDER, help="the command with its words")
    options = parser.parse_args(words)
    if not options.command:
        parser.error("no command is given")
    begun, most, most_at = time.monotonic(), 0, 0.0
    try:
        process = subprocess.Popen(options.command)
    except OSError as fault:
        parser.error(f"{options.command[0]}: {fault.strerror}")
    # an interrupt of the terminal reaches the command too, whose end is waited for
    signal.signal(signal.SIGINT, signal.SIG_IGN)
    while process.poll() is None:
        looked = time.monotonic()
        held = resident_bytes(family(process.pid))
        if held > most:
            most, most_at = held, time.monotonic() - begun
        time.sleep(max(options.every, REST * (time.monotonic() - looked)))
    gone = time.monotonic() - begun
    used = resource.getrusage(resource.RUSAGE_CHILDREN)
    print(f"measure_run: {gone:.0f} s ({gone / 60:.1f} min), at most {most / 1e9:.2f} GB of memory"
          f" in all (after {most_at:.0f} s), {(used.ru_utime + used.ru_stime) / 60:.1f} processor"
          " minutes of what ended before it", file=sys.stderr)
    return process.returncode if process.returncode >= 0 else 128 - process.returncode


if __name__ == "__main__":
    sys.exit(main(sys.argv[1:]))
