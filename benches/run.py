#!/usr/bin/env python3
"""Times the jobs of programs/ as SETL programs and as the same work in Python and in Lua.

Each job NAME has a SETL program NAME.setl and a Python program NAME.py, and many have a Lua program NAME.lua, which
read one size from the input and write the same lines. The Lua programs run where Lua 5.4 is installed, as lua5.4 or
lua. For each of three sizes all run in turn, and the least time of a few rounds counts. A time is what the processor
spent on the run, so other work on the machine matters less than by the clock.

A line tells the job, the size, the times in seconds, how many times as long the SETL program took as the one in Python
and the one in Lua, by how much each time grew from the size before, and the machine instructions of each program in
millions. Ratio, growth and instructions leave out what an empty program takes, which has a line of its own. A `-`
stands where there is no such program or no count, and where too little time is left to tell. The status is 1 if a run
fails or two outputs differ.

Instructions are counted in one further run of each program: by `perf stat -e instructions:u` where perf can count them,
which is tried on the command `true`; else by `valgrind --tool=callgrind`, and then at the smallest size only, since it
is slow. Both count the instructions of the program itself and none of the system. Those of a Python program waver from
run to run. --no-instructions leaves the counts out, as does a machine with neither perf nor valgrind.

    run.py [--rounds N] [--limit SECONDS] [--program FILE] [--no-instructions] [JOB ..]

The built program is wanted in crates/setl/out (rt ci leaves it).
"""
import argparse
import re
import resource
import shutil
import subprocess
import sys
import tempfile
from pathlib import Path

FOLDER = Path(__file__).resolve().parent
SIZES = {
    'counting': (250_000, 500_000, 1_000_000),
    'sets': (10_000, 20_000, 40_000),
    'reachability': (10_000, 20_000, 40_000),
    'words': (10_000, 20_000, 40_000),
    'queens': (7, 8, 9),
    'closure': (100, 200, 400),
    'queues': (10_000, 20_000, 40_000),
    'strings': (10_000, 20_000, 40_000),
    'deep': (250, 500, 1_000),
    # the largest input has some 10 MB
    'reading': (375_000, 750_000, 1_500_000),
    'components': (5_000, 10_000, 20_000),
    'colouring': (2_500, 5_000, 10_000),
    'join': (5_000, 10_000, 20_000),
    'life': (30, 60, 90),
    'scanning': (5_000, 10_000, 20_000),
    'recursion': (2_500, 5_000, 10_000),
    'sorting': (5_000, 10_000, 20_000),
}
LANGUAGES = ('setl', 'python', 'lua')
# net seconds below this tell nothing
LEAST = 0.005


class Failed(Exception):
    """A run that didn't end well, with what is told of it."""


def input_of(job, size):
    """The input of a job at a size: the size, and for `reading` as many numbers behind it."""
    lines = [str(size)]
    if job == 'reading':
        lines += (str(i * 7919 % 1_000_003) for i in range(size))
    return ''.join(line + '\n' for line in lines).encode()


def spent():
    """The seconds that the processor spent on runs that have ended."""
    usage = resource.getrusage(resource.RUSAGE_CHILDREN)
    return usage.ru_utime + usage.ru_stime


def timed(command, given_input, limit):
    """The seconds of a run with this input, and what it writes."""
    before = spent()
    try:
        done = subprocess.run(command, input=given_input, capture_output=True, timeout=limit)
    except subprocess.TimeoutExpired:
        raise Failed(f'takes more than {limit} seconds')
    seconds = spent() - before
    if done.returncode != 0:
        told = done.stderr.decode(errors='replace').strip().split('\n')[-1]
        raise Failed(f'ended with status {done.returncode}: {told}')
    return seconds, done.stdout


def perf(file, command):
    """The command that writes to a file how many instructions a command takes, by the processor's own counter."""
    return ['perf', 'stat', '-x', ',', '-e', 'instructions:u', '-o', file, *command]


def callgrind(file, command):
    """The same by callgrind, which runs the command on a processor of its own."""
    return ['valgrind', '--tool=callgrind', f'--callgrind-out-file={file}', *command]


# how each of them writes its counts: perf has a line for each kind of core, and callgrind one in all
COUNTS = {perf: r'^(\d+),[^,\n]*,[^,\n]*instructions', callgrind: r'^totals: (\d+)$'}


def counted(counter, command, given_input, limit):
    """The instructions of a run with this input, in millions, and what it writes."""
    with tempfile.NamedTemporaryFile() as file:
        _, output = timed(counter(file.name, command), given_input, limit)
        counts = re.findall(COUNTS[counter], Path(file.name).read_text(errors='replace'), re.MULTILINE)
    if not counts:
        raise Failed('counted nothing')
    return sum(map(int, counts)) / 1e6, output


def find_counter():
    """What counts instructions on this machine, or None."""
    for counter, name in (perf, 'perf'), (callgrind, 'valgrind'):
        if shutil.which(name):
            try:
                counted(counter, ['true'], b'', 60.0)
                return counter
            except Failed:
                pass
    return None


def find_lua():
    """The file of Lua 5.4, or None."""
    for name in 'lua5.4', 'lua':
        file = shutil.which(name)
        if file and subprocess.run([file, '-v'], capture_output=True).stdout.startswith(b'Lua 5.4'):
            return file
    return None


def quotient(a, b):
    """The text of one net time by another."""
    return f'{a / b:>10.2f}' if None not in (a, b) and min(a, b) >= LEAST else f'{"-":>10}'


def number(x, places):
    """The text of a time or a count."""
    return f'{"-":>10}' if x is None else f'{x:>10.{places}f}'


def less(xs, ys):
    """The differences of two lists, None where one of the two is None."""
    return [None if None in pair else pair[0] - pair[1] for pair in zip(xs, ys)]


class Bench:
    """The programs that are compared, with what each takes for an empty program."""

    def __init__(self, given):
        self.rounds = given.rounds
        self.limit = given.limit
        self.counter = find_counter() if given.instructions else None
        setl = [given.program.resolve(), 'run']
        lua = find_lua()
        # how the programs with these endings are run, in the order of LANGUAGES
        self.starts = {'.setl': setl, '.py': [sys.executable], '.lua': [lua] if lua else None}
        empties = [[*setl, FOLDER.parent / 'examples' / 'regressions' / 'empty.setl'], [sys.executable, '-c', ''],
                   [lua, '-e', ''] if lua else None]
        self.empty_times, _ = self.run(empties, b'0\n', max(self.rounds, 5))
        self.empty_counts = self.count(empties, b'0\n', None)

    def run(self, commands, given_input, rounds):
        """The least times of these commands over some rounds, in which they run in turn, and what all of them write.

        None stands for a command and a time that aren't there.
        """
        times = [None] * len(commands)
        wanted = None
        for _ in range(rounds):
            for i, command in enumerate(commands):
                if command is None:
                    continue
                try:
                    seconds, output = timed(command, given_input, self.limit)
                except Failed as failed:
                    raise Failed(f'{LANGUAGES[i]} {failed}')
                if wanted is None:
                    wanted = output
                elif output != wanted:
                    raise Failed(f'{LANGUAGES[i]} writes something else')
                times[i] = seconds if times[i] is None else min(times[i], seconds)
        return times, wanted

    def count(self, commands, given_input, wanted):
        """The millions of instructions of these commands, which write what is wanted if that is known."""
        counts = [None] * len(commands)
        for i, command in enumerate(commands):
            if command is None or self.counter is None:
                continue
            try:
                counts[i], output = counted(self.counter, command, given_input, self.limit)
            except Failed as failed:
                print(f'no count of {LANGUAGES[i]}, since it {failed}', file=sys.stderr)
                continue
            if wanted not in (None, output):
                raise Failed(f'{LANGUAGES[i]} writes something else where it is counted')
        return counts

    def programs(self, job):
        """The commands of a job, None where there is no program or nothing that runs it."""
        commands = []
        for ending, start in self.starts.items():
            file = FOLDER / 'programs' / (job + ending)
            commands.append([*start, file] if start and file.exists() else None)
        return commands

    def measure(self, job):
        """Writes the lines of a job, and tells whether all went well."""
        commands = self.programs(job)
        before = [None] * len(commands)
        for place, size in enumerate(SIZES[job]):
            given_input = input_of(job, size)
            try:
                times, output = self.run(commands, given_input, self.rounds)
                if place == 0 or self.counter is perf:
                    counts = less(self.count(commands, given_input, output), self.empty_counts)
                else:
                    counts = [None] * len(commands)
            except Failed as failed:
                print(f'{job:13}{size:>9}  {failed}', flush=True)
                return False
            net = less(times, self.empty_times)
            line = f'{job:13}{size:>9}' + ''.join(number(x, 3) for x in times)
            line += quotient(net[0], net[1]) + quotient(net[0], net[2])
            line += ''.join(quotient(a, b) for a, b in zip(net, before))
            line += ''.join(number(x, 1) for x in counts)
            print(line, flush=True)
            before = net
        return True


def main():
    parser = argparse.ArgumentParser(description='Times SETL programs and the same work in Python and in Lua.')
    parser.add_argument('--rounds', type=int, default=3)
    parser.add_argument('--limit', type=float, default=120.0, help='seconds after which a run is ended')
    parser.add_argument('--program', type=Path, default=FOLDER.parent / 'crates' / 'setl' / 'out' / 'setl')
    parser.add_argument('--no-instructions', dest='instructions', action='store_false',
                        help='count no machine instructions, which is slow without perf')
    parser.add_argument('jobs', nargs='*', metavar='JOB', help=', '.join(SIZES))
    given = parser.parse_args()
    unknown = [job for job in given.jobs if job not in SIZES]
    if unknown:
        parser.error(f'no such job: {unknown[0]}')
    if not given.program.exists():
        sys.exit(f'run: {given.program} isn\'t there; rt ci leaves it')
    try:
        bench = Bench(given)
    except Failed as failed:
        sys.exit(f'run: an empty program: {failed}')
    counter = 'not counted' if bench.counter is None else f'by {bench.counter.__name__}'
    print(f'instructions: {counter}')
    print(f'{"an empty program":22}' + ''.join(number(x, 3) for x in bench.empty_times) + ' ' * 50
          + ''.join(number(x, 1) for x in bench.empty_counts))
    heads = [f'{name} s' for name in LANGUAGES] + ['by python', 'by lua'] + [f'{name} x' for name in LANGUAGES]
    heads += [f'{name} M' for name in LANGUAGES]
    print(f'{"job":13}{"size":>9}' + ''.join(f'{head:>10}' for head in heads), flush=True)
    fine = [bench.measure(job) for job in given.jobs or SIZES]
    sys.exit(0 if all(fine) else 1)


if __name__ == '__main__':
    main()
