"""steady.py ACTS SITES: writes a script of that many acts in which every label is on its way for a while and then shown.

The sites are seated at three serializers, two of which hang on the first. In each round each site writes one item, gathers and emits;
then each link of the tree is taken from once for each site; then each site takes the payloads that are made for it and turns. Items
are kept at three sites each, or at all where there are fewer. The same numbers give the same script."""
import itertools
import sys


def main():
    acts, sites = int(sys.argv[1]), int(sys.argv[2])
    items = 40 * sites
    kept = [sorted({(x + k) % sites for k in range(min(3, sites))}) for x in range(items)]
    seats = [i % 3 for i in range(sites)]
    lines = ['saturn 1', f'sites {sites}', 'gears 2']
    lines += [f'item x{x} ' + ','.join(map(str, at)) for x, at in enumerate(kept)]
    lines += [f'client c{i} {i}' for i in range(sites)]
    lines += ['plan tree - 0 0 / ' + ' '.join(map(str, seats)), 'begin']
    print('\n'.join(lines))
    print('\n'.join(itertools.islice(rounds(sites, items, kept, seats), acts)))
    print('end')


def rounds(sites, items, kept, seats):
    up = [(f's{i}', f'z{seats[i]}') for i in range(sites)]
    across = [('z1', 'z0'), ('z2', 'z0'), ('z0', 'z1'), ('z0', 'z2')]
    for n in itertools.count():
        for i in range(sites):
            x = (i + sites * (n % (items // sites))) % items
            yield f'write c{i} x{x} v{n}'
            yield f'gather {i}'
            yield f'emit {i}'
            yield f'tick {i} {(x + 1) % 2} {n + 1}'
        for u, v in up:
            yield f'hop 1 {u} {v}'
        for u, v in across:
            for _ in range(sites):
                yield f'hop 1 {u} {v}'
        for i in range(sites):
            x = (i + sites * (n % (items // sites))) % items
            for j in kept[x]:
                if j != i:
                    yield f'bulk {i} {x % 2} {j}'
        for i in range(sites):
            yield f'turn {i}'
            yield f'turn {i}'
            yield f'read c{i} x{i}'


main()
