"""refused.py [-m MOST] [-p PROGRAM] COMMAND INPUT ..: what the program does where the system refuses it memory.

For each COMMAND and INPUT (run examples/plain-path.saturn live examples/two-clients.live) it counts the allocations of one run, and then
runs the program anew for each of them, or for MOST of them spread over all (400 where nothing is said): once that one alone is refused, and
once that one and each behind it. The status must be 0 or 5. With 0 the output must be the whole one, with 5 a front of it; of `live`, whose
output is the schedule's, with 0 a text whose script `run` gives the report behind it, and with 5 a text that was begun as the script's
is. It prints a line for each input, a line for each wrong run, and ends with 1 if there was one.

The program is crates/saturn/out/saturn, or without it the unproved one that ./saturn made."""
import os
import struct
import subprocess
import sys
import tempfile

HERE = os.path.dirname(os.path.abspath(__file__))
OUT = os.path.join(os.path.dirname(HERE), 'crates/saturn/out')
MOST, SECONDS = 400, 300


def command_of(program):
    """How the program is started, and with which library before all others."""
    if program is None:
        program = os.path.join(OUT, 'saturn')
        if not os.path.exists(program):
            program = os.path.join(OUT, 'unproved')
    if not program.endswith('unproved'):
        return lambda library: ([program], {'LD_PRELOAD': library})
    kit = os.path.dirname(os.path.dirname(os.path.realpath(subprocess.check_output(['which', 'rt'], text=True).strip())))
    of_kit = os.path.join(kit, 'toolchain/lib')
    start = [os.path.join(of_kit, 'ld-linux-x86-64.so.2'), '--inhibit-cache', '--library-path', of_kit]
    return lambda library: (start + (['--preload', library] if library else []) + [program], {'ASAN_OPTIONS': 'detect_leaks=0'})


class Runs:
    def __init__(self, program, work):
        self.start = command_of(program)
        self.library, self.count = os.path.join(work, 'refuse.so'), os.path.join(work, 'count')
        subprocess.run(['cc', '-O1', '-shared', '-fPIC', '-o', self.library, os.path.join(HERE, 'refuse.c')], check=True)
        with open(self.count, 'wb') as file:
            file.write(bytes(8))

    def run(self, command, text, **refused):
        """The status, the output and standard error of one run, and how many allocations it made. A run that does not end has no status."""
        words, settings = self.start(self.library)
        how = {**os.environ, **settings, 'REFUSE_COUNT': self.count, **refused}
        try:
            ran = subprocess.run(words + [command], input=text, capture_output=True, env=how, timeout=SECONDS)
        except subprocess.TimeoutExpired as late:
            return None, late.stdout or b'', b'', 0
        with open(self.count, 'rb') as file:
            return ran.returncode, ran.stdout, ran.stderr, struct.unpack('Q', file.read())[0]

    def report_of(self, script):
        return self.run('run', script)[1]


def is_history(runs, output):
    """Whether `run` prints of the script that `live` wrote the report behind it."""
    script, end, report = output.partition(b'\nend\n')
    return bool(end) and runs.report_of(script + end) == report


def is_begun(output, text):
    """Whether the output is a front of a script with the header of the text."""
    header = text[:text.find(b'\nbegin\n') + len(b'\nbegin\n')]
    return output.startswith(header) or header.startswith(output)


def is_right(runs, command, text, whole, status, output):
    if status == 0:
        return is_history(runs, output) if command == 'live' else output == whole
    if status == 5:
        return is_begun(output, text) if command == 'live' else whole.startswith(output)
    return False


def spread(total, most):
    """So many numbers from 1 to the total, the first and the last among them."""
    if total <= most:
        return range(1, total + 1)
    return sorted({1 + at * (total - 1) // (most - 1) for at in range(most)})


def try_all(runs, most, command, name):
    with open(name, 'rb') as file:
        text = file.read()
    status, whole, _, total = runs.run(command, text)
    if status != 0:
        sys.exit(f'refused.py: {command} of {name} ends with {status} where nothing is refused')
    done = refused = unsaid = wrong = longest = 0
    for number in spread(total, most):
        for on in ({}, {'REFUSE_ON': '1'}):
            status, output, error, _ = runs.run(command, text, REFUSE_AT=str(number), **on)
            done += status == 0
            refused += status == 5
            unsaid += status == 5 and not error
            longest = max(longest, len(output) if status == 5 else 0)
            if not is_right(runs, command, text, whole, status, output):
                wrong += 1
                print(f'{command} {name}: allocation {number}{" and all behind it" if on else ""}: status {status}, output {output[-80:]!r}')
    print(f'{command} {os.path.basename(name)}: {total} allocations; {done + refused + wrong} runs, {done} ended with 0 and {refused} with 5'
          f' (the longest output {longest} of {len(whole)} bytes, {unsaid} without a line on standard error), {wrong} wrong', flush=True)
    return wrong


def main():
    words, most, program = sys.argv[1:], MOST, None
    while words and words[0] in ('-m', '-p'):
        if words[0] == '-m':
            most = int(words[1])
        else:
            program = words[1]
        words = words[2:]
    if not words or len(words) % 2:
        sys.exit(__doc__)
    with tempfile.TemporaryDirectory() as work:
        runs = Runs(program, work)
        sys.exit(any([try_all(runs, most, command, name) for command, name in zip(words[::2], words[1::2])]))


main()
