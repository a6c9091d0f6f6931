"""live.py CLIENTS GEARS ACTS [GROUP [RUNS]]: times `saturn live` on a script of clients that all sit at one site.

There are two sites with that many gears. Each client, at site 0, does that many acts: by turns it writes GROUP items at once, of
different gears where there are so many (1 to 4, 2 if left out), and reads one of them. All items are kept at both sites. The script is
run RUNS times (21 if left out), and each run has to end with 0. It prints the median of user time, of system time and of wall time,
and from the last the acts of clients a second. `live` takes at most 16 clients and 4,000 acts. SATURN names another program than the
built one. With RUNS 0 it writes the script. Run it on a machine that does nothing else, after `rt ci saturn`."""
import os
import statistics
import subprocess
import sys
import time

TOP = os.path.dirname(os.path.dirname(os.path.abspath(__file__)))
PROGRAM = os.environ.get('SATURN') or os.path.join(TOP, 'crates/saturn/out/saturn')


def script(clients, gears, acts, group):
    """The text of the script. An item's gear is its number's rest by the number of gears."""
    items = max(8 * gears, 4)
    lines = ['saturn 2', 'sites 2', f'gears {gears}']
    lines += [f'item x{x} 0,1' for x in range(items)]
    lines += [f'client c{c} 0' for c in range(clients)]
    lines += ['plan tree - / 0 0', 'begin']
    for n in range(acts):
        for c in range(clients):
            first = (c + n // 2 * group) % items
            chosen = sorted((first + k) % items for k in range(group))
            if n % 2:
                lines.append(f'read c{c} x{chosen[0]}')
            elif group == 1:
                lines.append(f'write c{c} x{chosen[0]} v{n}')
            else:
                lines.append(f'writes c{c} ' + ' '.join(f'x{x} v{n}' for x in chosen))
    return '\n'.join([*lines, 'end', ''])


def run(text):
    """The user, system and wall time of one run, in milliseconds."""
    begun = time.monotonic()
    child = subprocess.Popen([PROGRAM, 'live'], stdin=subprocess.PIPE, stdout=subprocess.DEVNULL)
    child.stdin.write(text)
    child.stdin.close()
    _, status, usage = os.wait4(child.pid, 0)
    wall = time.monotonic() - begun
    child.returncode = os.waitstatus_to_exitcode(status)
    if child.returncode:
        sys.exit(f'live.py: a run ended with status {child.returncode}')
    return usage.ru_utime * 1000, usage.ru_stime * 1000, wall * 1000


def main():
    given = list(map(int, sys.argv[1:]))
    clients, gears, acts, group, runs = given + [2, 21][len(given) - 3:]
    text = script(clients, gears, acts, group)
    if runs == 0:
        sys.stdout.write(text)
        return
    if not os.access(PROGRAM, os.X_OK):
        sys.exit('live.py: build the program first: rt ci saturn')
    user, system, wall = map(statistics.median, zip(*(run(text.encode()) for _ in range(runs))))
    print(f'{clients} clients, {gears} gears, {clients * acts} acts, groups of {group}: {user:.1f} ms of user time, '
          f'{system:.1f} ms of system time, {wall:.1f} ms of wall time, {clients * acts / wall * 1000:.0f} acts a second')


main()
