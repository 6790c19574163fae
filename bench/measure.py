"""Measures programs: processor seconds (user and system) and the peak of resident memory."""
import ctypes
import os

PR_SET_CHILD_SUBREAPER = 36
MIB = 1 << 20


def once(words, wanted=0):
    """The seconds and the peak in MiB of one run, which ends with the wanted status."""
    # What a process held before it became the program counts in its peak, and Python holds more than some
    # of the programs. So a shell, which is small, starts the program and ends, and its child becomes ours.
    ctypes.CDLL(None).prctl(PR_SET_CHILD_SUBREAPER, 1)
    out = '/dev/null 2>&1' if wanted else '/dev/null'
    shell = os.posix_spawn('/bin/sh', ['sh', '-c', f'"$@" > {out} &', 'sh', *words], os.environ)
    os.waitpid(shell, 0)
    _, status, used = os.wait4(-1, 0)
    if os.waitstatus_to_exitcode(status) != wanted:
        raise SystemExit(f'bench: {" ".join(words)} failed')
    return used.ru_utime + used.ru_stime, used.ru_maxrss * 1024 / MIB


def least(commands, rounds, statuses=None):
    """The least seconds and the least peak of each command, over rounds that run each once."""
    wanted = statuses or [0] * len(commands)
    runs = [[once(*run) for run in zip(commands, wanted)] for _ in range(rounds)]
    return [(min(seconds for seconds, _ in of_one), min(peak for _, peak in of_one)) for of_one in zip(*runs)]
