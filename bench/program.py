"""The program that benchmarks run, and what a run of it takes."""
import ctypes
import os
import shutil
import sys
import tempfile

BENCH = os.path.dirname(os.path.realpath(__file__))
TOP = os.path.dirname(BENCH)
# (a run changes its folder before it asks for the program)
PROGRAM = os.path.abspath(os.environ.get('BDS', f'{TOP}/out/proved/bds'))
PR_SET_CHILD_SUBREAPER = 36


def program():
    """The path of the program, as `./prove` builds it, or as the environment's `BDS` says."""
    if not os.access(PROGRAM, os.X_OK):
        raise SystemExit(f'bench: {PROGRAM} is missing: ./prove builds it')
    return PROGRAM


def room():
    """A temporary folder, which becomes the current one and is removed at the end of `with`."""
    class Room(tempfile.TemporaryDirectory):
        def __enter__(self):
            os.chdir(super().__enter__())
            return self.name

        def __exit__(self, *reason):
            os.chdir('/')
            super().__exit__(*reason)
    return Room(prefix='bds-bench-')


def is_there(words):
    """Whether the machine has this program; says so where not."""
    if shutil.which(words[0]):
        return True
    print(f'bench: {words[0]} is not installed here', file=sys.stderr)
    return False


def cost(words, codes=(0,)):
    """What one run takes: the processor seconds of a program and of all that it starts, and the peak of the program itself in MiB."""
    # A process counts in its peak what it held before it became the program, and Python holds more than most. So a shell, which is small, makes a process
    # and ends, which so becomes ours; it then becomes the program.
    ctypes.CDLL(None).prctl(PR_SET_CHILD_SUBREAPER, 1)
    (told, tell), (hear, go) = os.pipe(), os.pipe()
    line = '{ read -r _ <&8; exec "$@" 8<&- 9>&- < /dev/null > /dev/null 2> errors; } & echo $! >&9'
    actions = [(os.POSIX_SPAWN_DUP2, hear, 8), (os.POSIX_SPAWN_DUP2, tell, 9)]
    shell = os.posix_spawn('/bin/sh', ['sh', '-c', line, 'sh', *words], os.environ, file_actions=actions)
    os.close(tell), os.close(hear)
    with open(told) as file:
        started = int(file.readline())
    os.waitpid(shell, 0)
    os.write(go, b'\n'), os.close(go)
    seconds = peak = code = 0
    while True:
        try:
            child, status, used = os.wait4(-1, 0)
        except ChildProcessError:
            break
        seconds += used.ru_utime + used.ru_stime
        if child == started:
            peak, code = used.ru_maxrss / 1024, os.waitstatus_to_exitcode(status)
    if code not in codes:
        with open('errors') as file:
            raise SystemExit(f'bench: {" ".join(words)} ended with {code}: {file.read(400)}')
    return seconds, peak


def least(rows, rounds):
    """The least seconds and the least peak of each command, over rounds that run each once."""
    runs = [[cost(words) for words in rows] for _ in range(rounds)]
    return [tuple(min(part) for part in zip(*of_one)) for of_one in zip(*runs)]
