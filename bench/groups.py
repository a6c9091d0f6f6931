"""groups.py [SEED]: reads a script of format 1 and writes it as one of format 2 in which half of the writes are of two to four items.

The further items are drawn, first from those that the sites of the written item keep too, so that most groups are done and some are
refused. The same script comes of the same input and seed. It keeps the limits of format 2 if the script has at most 30,000 acts."""
import random
import sys


def main():
    draw = random.Random(int(sys.argv[1]) if len(sys.argv) > 1 else 1)
    items, keepers = [], {}
    for line in sys.stdin:
        words = line.split()
        if words[:1] == ['saturn']:
            line = 'saturn 2\n'
        elif words[:1] == ['item']:
            items.append(words[1])
            keepers[words[1]] = set(words[2].split(','))
        elif words[:1] == ['write'] and draw.random() < 0.5:
            line = group(draw, items, keepers, *words[1:]) or line
        sys.stdout.write(line)


def group(draw, items, keepers, client, item, value):
    near = [other for other in items if other != item and keepers[other] & keepers[item]]
    others = near if near and draw.random() < 0.8 else [other for other in items if other != item]
    if not others:
        return None
    chosen = {item, *draw.sample(others, min(len(others), draw.randint(1, 3)))}
    pairs = [f'{name} {value if name == item else value[:200] + str(n)}' for n, name in enumerate(items) if name in chosen]
    return f'writes {client} {" ".join(pairs)}\n'


main()
