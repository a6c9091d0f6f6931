"""limits.py: writes a script at the limits of format 2.

It has 64 sites of 8 gears, 65,535 items, 1,024 clients, 16 epochs, each with a tree of 15 serializers, and 30,000 acts, 64 settles
among them, four in each epoch. Before each settle one write goes its whole way act by act, clients read, leave, move and come, and all
else is writes, which the settle brings. At the end of each epoch but the last all sites close it, and its last settle takes them on; in
two of the epochs a serializer dies first, and the sites fall. The same script comes each time."""
import itertools

SITES, GEARS, ITEMS, CLIENTS, EPOCHS, SERIALIZERS, ACTS, SETTLES = 64, 8, 65_535, 1_024, 16, 15, 30_000, 64
LETTERS = 'ABCDEFGHIJKLMNOPQRSTUVWXYZabcdefghijklmnopqrstuvwxyz0123456789_-.'
VALUE = ''.join(map(chr, range(33, 127))) * 3


def main():
    print(f'saturn 2\nsites {SITES}\ngears {GEARS}')
    for item in range(ITEMS):
        print('item', item_name(item), ','.join(map(str, replicas(item))))
    for client in range(CLIENTS):
        print('client', client_name(client), client % SITES)
    for epoch in range(1, EPOCHS + 1):
        print('plan tree -', *parents(epoch)[1:], '/', *(seat(epoch, site) for site in range(SITES)))
    print('begin')
    each = ACTS // SETTLES
    for part in range(SETTLES):
        wanted = each if part < SETTLES - 1 else ACTS - each * (SETTLES - 1)
        last = [*closing(part), 'settle']
        first = itertools.chain(coming(part), whole_way(part), going(part), writes(part))
        print('\n'.join([*itertools.islice(first, wanted - len(last)), *last]))
    print('end')


def item_name(item):
    """A name of 32 bytes, as long as a name may be."""
    return f'{item:05}' + (LETTERS * 2)[item % 65:][:27]


def client_name(client):
    return (LETTERS * 2)[client % 65:][:28] + f'{client:04}'


def replicas(item):
    """The first items and the last ones are kept at all sites, the others at one to three."""
    if item < SITES or item >= ITEMS - GEARS:
        return range(SITES)
    return sorted({(item + 11 * k) % SITES for k in range(1 + item // 64 % 3)})


def parents(epoch):
    """A chain, a binary tree, a star, and a chain with two on each link of it, in turns."""
    return [[max(z - 1, 0), max(z - 1, 0) // 2, 0, max(z - 2, 0)][epoch % 4] for z in range(SERIALIZERS)]


def seat(epoch, site):
    return [site % SERIALIZERS, site * SERIALIZERS // SITES][epoch // 4 % 2]


def up(epoch, z):
    """A serializer, the one that it hangs on, and so on up to the root."""
    while z:
        yield z
        z = parents(epoch)[z]
    yield 0


def way(epoch, source, target):
    """The serializers between two sites."""
    rise, fall = list(up(epoch, seat(epoch, source))), list(up(epoch, seat(epoch, target)))
    while len(rise) > 1 and len(fall) > 1 and rise[-2] == fall[-2]:
        rise.pop()
        fall.pop()
    return rise + fall[-2::-1]


def epoch_of(part):
    return part * EPOCHS // SETTLES + 1


def whole_way(part):
    """A write of the last item comes from one site to another by hand. Each settle before made one beat for each two sites."""
    epoch, source, target = epoch_of(part), part, (part * 29 + 7) % SITES
    item, gear = ITEMS - 1, (ITEMS - 1) % GEARS
    yield f'write {client_name(source)} {item_name(item)} {VALUE[part:part + 256]}'
    for g in range(GEARS):
        yield f'tick {source} {g} {(part + 1) * 1_000_000}'
    yield f'gather {source}'
    yield f'emit {source}'
    yield f'pulse {source}'
    nodes = [f's{source}'] + [f'z{z}' for z in way(epoch, source, target)]
    for u, z in zip(nodes, nodes[1:]):
        yield f'hop {epoch} {u} {z}'
    yield f'turn {target}'
    yield f'bulk {source} {gear} {target}'
    yield f'bulk {source} {gear} {target} 0'
    yield f'turn {target}'
    yield f'stamp {target}'
    yield f'advance {target}'
    yield f'beat {source} {target}'
    yield f'beatin {source} {target} {part}'


def going(part):
    """Eight clients go away from their first sites, and others read."""
    for client in goers(part):
        yield f'read {client_name(client)} {item_name(client % SITES)}'
        yield f'leave {client_name(client)}' if client % 2 else f'move {client_name(client)} {(client + 31) % SITES}'
        yield f'read {client_name(client + 64)} {item_name(client % SITES)}'


def coming(part):
    """Those that went away before the last settle come to other sites."""
    if part:
        for client in goers(part - 1):
            yield f'attach {client_name(client)} {(client + 31) % SITES}'
            yield f'read {client_name(client)} {item_name(client % SITES)}'


def goers(part):
    return range(64 + 8 * part, 64 + 8 * part + 8) if part < 56 else []


def writes(part):
    """Each client writes an item that its first site keeps, every fourth time one that all keep."""
    for n in itertools.count(part * 500):
        client = n * 37 % CLIENTS
        item = client % SITES + SITES * (n * 13 % 1_023) if n % 4 else n % SITES
        yield f'write {client_name(client)} {item_name(item)} {VALUE[n % 94:][:1 + n * 7 % 256]}'


def closing(part):
    """At the end of an epoch all sites close it. Behind a dead serializer they fall."""
    if part % 4 < 3 or epoch_of(part) == EPOCHS:
        return
    falls = epoch_of(part) % 8 == 5
    if falls:
        yield f'kill {epoch_of(part)} z{SERIALIZERS - 1 - part // 8}'
    for site in range(SITES):
        yield f'close {site}'
    for site in range(SITES if falls else 0):
        yield f'fall {site}'


main()
