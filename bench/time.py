"""time.py [SITES]: times the built program on steady scripts of three sizes, 21 times in turns.

It prints the median processor time, how many times that of the first size it is, and the greatest memory of one run. It needs
GNU time, for the memory. Run it on a machine that does nothing else, after `rt ci saturn`."""
import os
import statistics
import subprocess
import sys
import tempfile

TOP = os.path.dirname(os.path.dirname(os.path.abspath(__file__)))
PROGRAM = os.path.join(TOP, 'crates/saturn/out/saturn')


def processor_ms(script):
    """The processor time of one run, in milliseconds."""
    with open(script, 'rb') as source:
        child = subprocess.Popen([PROGRAM, 'run'], stdin=source, stdout=subprocess.DEVNULL)
        _, status, usage = os.wait4(child.pid, 0)
    child.returncode = os.waitstatus_to_exitcode(status)
    if child.returncode:
        sys.exit(f'time.py: the run of {script} ended with status {child.returncode}')
    return (usage.ru_utime + usage.ru_stime) * 1000


def greatest_mb(script, work):
    """The greatest memory of one run, in megabytes."""
    note = os.path.join(work, 'memory')
    with open(script, 'rb') as source:
        subprocess.run(['/usr/bin/time', '-o', note, '-f', '%M', PROGRAM, 'run'], stdin=source, stdout=subprocess.DEVNULL, check=True)
    with open(note) as text:
        return int(text.read()) / 1000


def main():
    if not os.access(PROGRAM, os.X_OK):
        sys.exit('time.py: build the program first: rt ci saturn')
    sites = (sys.argv[1:] or ['5'])[0]
    with tempfile.TemporaryDirectory() as work:
        scripts = {acts: os.path.join(work, str(acts)) for acts in (50_000, 100_000, 200_000)}
        for acts, script in scripts.items():
            with open(script, 'wb') as out:
                subprocess.run([sys.executable, os.path.join(TOP, 'bench/steady.py'), str(acts), sites], stdout=out, check=True)
        # The sizes take turns, so that what else the machine does falls on all.
        runs = [[processor_ms(script) for script in scripts.values()] for _ in range(21)]
        medians = [statistics.median(spent) for spent in zip(*runs)]
        for (acts, script), spent in zip(scripts.items(), medians):
            print(f'{acts} acts: {spent:.1f} ms of processor time ({spent / medians[0]:.1f} times the first), {greatest_mb(script, work):.1f} MB')


main()
