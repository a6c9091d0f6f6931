"""orders.py [PROGRAM]: looks for orders of acts in which a script takes time that grows faster than its acts.

It runs the scripts of kinds.py that have numbers in rising, falling and random order, each with 49,000 and with 196,000 acts, three times,
prints the least processor time of both, and ends with status 1 if four times the acts took more than ten times as long somewhere."""
import os
import subprocess
import sys
import tempfile

TOP = os.path.dirname(os.path.dirname(os.path.abspath(__file__)))
PROGRAM = sys.argv[1] if len(sys.argv) > 1 else os.path.join(TOP, 'crates/saturn/out/saturn')
KINDS = 'payloads', 'beats', 'counts', 'overtaken', 'turns', 'stamped', 'ticks'
ORDERS = 'rising', 'falling', 'random'
FEW, MANY, MOST, RUNS, SITES = 49_000, 196_000, 10, 3, 5


def processor_ms(script):
    """The processor time of one run, in milliseconds."""
    with open(script, 'rb') as source:
        child = subprocess.Popen([PROGRAM, 'run'], stdin=source, stdout=subprocess.DEVNULL)
        _, status, usage = os.wait4(child.pid, 0)
    child.returncode = os.waitstatus_to_exitcode(status)
    if child.returncode:
        sys.exit(f'orders.py: a run ended with status {child.returncode}')
    return (usage.ru_utime + usage.ru_stime) * 1000


def least_ms(kind, acts, work):
    script = os.path.join(work, 'script')
    with open(script, 'wb') as out:
        subprocess.run([sys.executable, os.path.join(TOP, 'bench/kinds.py'), kind, str(acts), str(SITES)], stdout=out, check=True)
    return min(processor_ms(script) for _ in range(RUNS))


def main():
    grows = False
    with tempfile.TemporaryDirectory() as work:
        for kind in (f'{name}-{order}' for name in KINDS for order in ORDERS):
            few, many = least_ms(kind, FEW, work), least_ms(kind, MANY, work)
            is_more = many > MOST * few
            grows = grows or is_more
            print(f'{kind}: {few:.1f} ms, {many:.1f} ms{" (more than its acts)" if is_more else ""}')
    sys.exit(grows)


main()
