"""kinds.py KIND ACTS SITES [SEED]: writes a script of that many acts, of a kind that the states in a program must be fit for.

KIND is one of
  stamps            waves in stamp order: each wave is written, gathered, sent and told by beats, its payloads come, and all is shown
  settle1           all sites write one item that all keep, in values of one byte, and the last act is a settle
  settle256         the same with values of 256 bytes
  lanes             all payloads are made first, and then come lane by lane, each lane in its order
  lanes-far         the same, each lane in random order
  chains            waves through a tree whose serializers are chains, for `chain 3`: each label enters at the head, is handed on twice
                    and takes effect at the tail
and, with ORDER one of rising, falling and random,
  payloads-ORDER    half of all acts write into one lane, the others bring its payloads in that order
  beats-ORDER       half of all acts make beats of one site for another, the others take them in that order, all of them before the one
                    payload that each counts
  counts-ORDER      each beat counts one payload more than the one before. All are taken in that order, and then the payloads come
  overtaken-ORDER   the same, but the payloads come in that order too
  turns-ORDER       the labels of one lane come through the tree, its payloads in that order, and then all is shown
  stamped-ORDER     the same in stamp order, with the lanes of all sites to site 0
  ticks-ORDER       the clock of one gear is set to numbers in that order
The same words give the same script."""
import itertools
import random
import sys

GEARS, ITEMS, CLIENTS, KEPT_AT = 4, 200, 64, 3
LETTERS = ''.join(map(chr, range(33, 127))) * 4


def main():
    kind, acts, sites = sys.argv[1], int(sys.argv[2]), int(sys.argv[3])
    pick = random.Random(int(sys.argv[4]) if len(sys.argv) > 4 else 1)
    name, _, order = kind.partition('-')
    lines = itertools.chain.from_iterable(KINDS[name](acts, sites, order, pick))
    print('\n'.join(lines))
    print('end')


def header(sites, gears, replicas, seats, plan):
    """The lines up to `begin`: item x0, x1, .. and client c0, c1, .., each with what it is kept at or seated at."""
    yield 'saturn 1' if sites <= 16 else 'saturn 2'
    yield f'sites {sites}'
    yield f'gears {gears}'
    for item, kept in enumerate(replicas):
        yield f'item x{item} ' + ','.join(map(str, sorted(kept)))
    for client, seat in enumerate(seats):
        yield f'client c{client} {seat}'
    yield plan
    yield 'begin'


def spread(sites, pick):
    """Items that are kept at some sites each, and those of each site."""
    replicas = [{x % sites, *pick.sample(range(sites), min(sites, KEPT_AT))} for x in range(ITEMS)]
    return replicas, [[x for x in range(ITEMS) if site in replicas[x]] for site in range(sites)]


def tree(sites):
    """Seven serializers in a binary tree, or three where there are few sites."""
    count = 3 if sites < 8 else 7
    parents = [str((z - 1) // 2) for z in range(1, count)]
    return ' '.join(['plan tree -', *parents, '/', *(str(site * count // sites) for site in range(sites))])


def in_order(order, numbers, pick):
    numbers = list(numbers)
    if order == 'falling':
        numbers.reverse()
    elif order == 'random':
        pick.shuffle(numbers)
    return numbers


def pairs(sites):
    return [(i, j) for i in range(sites) for j in range(sites) if i != j]


def stamps(acts, sites, _, pick):
    replicas, at = spread(sites, pick)
    seats = [client % sites for client in range(CLIENTS)]
    return header(sites, GEARS, replicas, seats, 'plan stamp'), itertools.islice(waves(sites, replicas, at, seats, pick), acts)


def waves(sites, replicas, at, seats, pick):
    for wave in itertools.count():
        made, to_come = [0] * sites, [0] * sites
        lanes = []
        for n in range(4 * sites):
            client = pick.randrange(CLIENTS)
            item = pick.choice(at[seats[client]])
            yield f'write c{client} x{item} v{n}'
            made[seats[client]] += 1
            for j in sorted(replicas[item] - {seats[client]}):
                lanes.append((seats[client], item % GEARS, j))
                to_come[j] += 1
        for site in range(sites):
            for gear in range(GEARS):
                yield f'tick {site} {gear} {(wave + 1) * 1_000}'
            yield f'gather {site}'
            yield from itertools.repeat(f'emit {site}', made[site])
        for i, j in pairs(sites):
            yield f'beat {i} {j}'
            yield f'beatin {i} {j} {wave}'
        for i, gear, j in lanes:
            yield f'bulk {i} {gear} {j}'
        for site in range(sites):
            yield from itertools.repeat(f'stamp {site}', to_come[site])


def chains(acts, sites, _, pick):
    replicas, at = spread(sites, pick)
    seats = [client % sites for client in range(CLIENTS)]
    return header(sites, 1, replicas, seats, tree(sites)), itertools.islice(chained(sites, replicas, at, seats, pick), acts)


def chained(sites, replicas, at, seats, pick):
    count = 3 if sites < 8 else 7
    home = [site * count // sites for site in range(sites)]
    ends = {z: [f'z{y}' for y in range(count) if y and (y - 1) // 2 == z] + [f'z{(z - 1) // 2}'] * (z > 0) for z in range(count)}

    def behind(z, y):
        """The sites that are reached from serializer z through its neighbour y."""
        found, queue = {z, y}, [y]
        for x in queue:
            queue += [n for n in (int(end[1:]) for end in ends[x]) if n not in found]
            found |= {*queue}
        return {site for site in range(sites) if home[site] in queue}

    reached = {(z, end): behind(z, int(end[1:])) for z in ends for end in ends[z]}
    for wave in itertools.count():
        made, lanes = [[] for _ in range(sites)], []
        for n in range(4 * sites):
            client = pick.randrange(CLIENTS)
            site, item = seats[client], pick.choice(at[seats[client]])
            yield f'write c{client} x{item} v{n}'
            made[site].append(replicas[item] - {site})
            lanes += [(site, 0, j) for j in sorted(replicas[item] - {site})]
        for site in range(sites):
            yield f'tick {site} 0 {(wave + 1) * 1_000}'
            yield f'gather {site}'
            yield from itertools.repeat(f'emit {site}', len(made[site]))
        # the labels of one gear leave in the order of their writes; each waits at a link into a serializer, with the sites that it is for
        under_way = [(f's{site}', home[site], targets) for site in range(sites) for targets in made[site]]
        turns = [0] * sites
        while under_way:
            onwards = []
            for source, z, targets in under_way:
                yield from (f'enter 1 {source} z{z}', f'pass 1 z{z} 0', f'pass 1 z{z} 1', f'apply 1 z{z}')
                for site in sorted(targets):
                    turns[site] += home[site] == z
                onwards += [(f'z{z}', int(end[1:]), targets & reached[z, end]) for end in ends[z] if end != source and targets & reached[z, end]]
            under_way = onwards
        for i, gear, j in lanes:
            yield f'bulk {i} {gear} {j}'
        for site in range(sites):
            yield from itertools.repeat(f'turn {site}', turns[site])


def settle(length):
    def lines(acts, sites, _, pick):
        yield header(sites, GEARS, [range(sites)], range(sites), tree(sites))
        yield (f'write c{n % sites} x0 {LETTERS[n % 94:][:length]}' for n in range(acts - 1))
        yield ['settle']
    return lines


def lanes(acts, sites, order, pick):
    """All items are kept at all sites."""
    seats = [client % sites for client in range(CLIENTS)]
    made = {}
    writes = []
    while len(writes) * sites < acts:
        client, item = pick.randrange(CLIENTS), pick.randrange(ITEMS)
        writes.append(f'write c{client} x{item} v{len(writes)}')
        for j in range(sites):
            if j != seats[client]:
                made[seats[client], item % GEARS, j] = made.get((seats[client], item % GEARS, j), 0) + 1
    bulks = (
        f'bulk {i} {g} {j}' + (f' {n}' if order else '')
        for (i, g, j), count in sorted(made.items())
        for n in in_order('random' if order else 'rising', range(count), pick)
    )
    return header(sites, GEARS, [range(sites)] * ITEMS, seats, tree(sites)), itertools.islice(itertools.chain(writes, bulks), acts)


def one_lane(acts, parts, sites, plan):
    """Gear 0 of site 1 writes item 0, which site 0 keeps too. There are as many payloads as there is room for with so many acts of each."""
    count = (acts - 8) // parts
    return count, header(sites, 1, [(0, 1)], [1], plan)


def payloads(acts, sites, order, pick):
    count, head = one_lane(acts, 2, sites, tree(sites))
    return head, (f'write c0 x0 v{n}' for n in range(count)), (f'bulk 1 0 0 {n}' for n in in_order(order, range(count), pick))


def beats(acts, sites, order, pick):
    count, head = one_lane(acts, 2, sites, tree(sites))
    taken = (f'beatin 1 0 {n}' for n in in_order(order, range(count), pick))
    return head, ['write c0 x0 v', 'gather 1'], itertools.repeat('beat 1 0', count), taken, ['bulk 1 0 0']


def counts(acts, sites, order, pick, overtaken=False):
    count, head = one_lane(acts, 5, sites, tree(sites))
    made = (f'write c0 x0 v{n}\ngather 1\nbeat 1 0' for n in range(count))
    taken = (f'beatin 1 0 {n}' for n in in_order(order, range(count), pick))
    come = (f'bulk 1 0 0 {n}' for n in (in_order(order, range(count), pick) if overtaken else range(count)))
    return head, made, taken, come


def overtaken(acts, sites, order, pick):
    return counts(acts, sites, order, pick, overtaken=True)


def turns(acts, sites, order, pick):
    count, head = one_lane(acts, 5, sites, ' '.join(['plan tree - /', *['0'] * sites]))
    written = (f'write c0 x0 v{n}' for n in range(count))
    come = (f'bulk 1 0 0 {n}' for n in in_order(order, range(count), pick))
    way = [itertools.repeat(act, count) for act in ('emit 1', 'hop 1 s1 z0', 'turn 0')]
    return head, written, ['gather 1'], way[0], way[1], come, way[2]


def stamped(acts, sites, order, pick):
    """The gears of all sites but the first write item 0 in turns."""
    count = (acts - 4 * sites - 8) // (4 * (sites - 1))
    yield header(sites, 1, [range(sites)], range(sites), 'plan stamp')
    yield (f'write c{i} x0 v{n}' for n in range(count) for i in range(1, sites))
    for i in range(1, sites):
        yield [f'tick {i} 0 {2 * count}', f'gather {i}', *itertools.repeat(f'emit {i}', count), f'beat {i} 0', f'beatin {i} 0 0']
    for i in range(1, sites):
        yield (f'bulk {i} 0 0 {n}' for n in in_order(order, range(count), pick))
    yield itertools.repeat('stamp 0', count * (sites - 1))


def ticks(acts, sites, order, pick):
    yield header(sites, GEARS, [], [], tree(sites))
    yield (f'tick 0 0 {n}' for n in in_order(order, range(acts), pick))


KINDS = {
    'stamps': stamps, 'chains': chains, 'settle1': settle(1), 'settle256': settle(256), 'lanes': lanes, 'payloads': payloads, 'beats': beats,
    'counts': counts, 'overtaken': overtaken, 'turns': turns, 'stamped': stamped, 'ticks': ticks,
}

main()
