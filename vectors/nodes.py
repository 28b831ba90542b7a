"""nodes.py COUNT SEED ANSWERS CASES KEPT: cases of entry n, tables and positions, over the tables of kept readings, and what
document 02 answers to them (C-15)."""
import random, sys

WIDTH, START, END, CHILDREN, SIZE = 7, 1, 2, 3, 6
count, seed, answers, cases, kept = int(sys.argv[1]), int(sys.argv[2]), *sys.argv[3:]
draw = random.Random(seed)
GREATEST = 2 ** 64 - 1


def search(table, position):
    """The answer as a line."""
    left = len(table) // WIDTH
    while left:
        row = table[(left - 1) * WIDTH:left * WIDTH]
        leaf, size = row[CHILDREN] == 0, row[SIZE]
        if size == 0 or size > left or leaf and size != 1:
            return 'refused 12 0 0'
        if not row[START] <= position < row[END]:
            left -= size
        elif leaf:
            return f'accepted {left - 1} {row[START]} {row[END]}'
        else:
            left -= 1
    return 'refused 13 0 0'


def tables():
    """The tables among the kept answers, each with its greatest end."""
    for block in open(answers).read().split('\n\n'):
        lines = block.strip('\n').split('\n')
        if lines[0].startswith('accepted'):
            table = [int(word) for line in lines[1:] for word in line.split()]
            if 0 < len(table) <= 60 * WIDTH:
                yield table, max(table[END::WIDTH])


def changed(table, i, number):
    return table[:i] + [number] + table[i + 1:]


const = [1, 6, 7, 0, 0, 0, 1, 1, 9, 11, 0, 0, 0, 1, 2, 9, 11, 1, 0, 0, 2, 6, 9, 11, 1, 0, 0, 3, 10, 14, 15, 0, 1, 0, 1, 40, 0, 16, 3, 0, 0, 6, 43, 0, 16, 1, 0, 0, 7]
made = [([], 0), ([1, 2, 3], 0), ([43, 0, 0, 0, 0, 0, 1], 0), ([43, 0, 1, 0, 0, 0, 1], 0), ([43, 0, 1, 0, 0, 0, 1], 1), ([0] * WIDTH, 0), ([GREATEST] * WIDTH, GREATEST),
        ([1, 0, GREATEST, 0, 0, 0, 1], GREATEST - 1), ([1, 0, GREATEST, 0, 0, 0, 1], GREATEST), ([1, 5, 4, 0, 0, 0, 1], 4)]
made += [(const, position) for position in [*range(18), GREATEST]]
made += [(const + [0] * left, 6) for left in range(1, WIDTH + 1)]
# the size of the type's row; of the literal's; of the tree's
made += [(changed(const, 3 * WIDTH + SIZE, size), position) for size in (0, 1, 2, 4, 5) for position in (6, 9, 14)]
made += [(changed(const, 4 * WIDTH + SIZE, size), position) for size in (0, 2, GREATEST) for position in (0, 14, 16)]
made += [(changed(const, 6 * WIDTH + SIZE, size), 14) for size in (0, 1, 6, 8, GREATEST)]
known = list(tables())
while len(made) < count:
    table, end = draw.choice(known)
    if draw.randrange(2):
        table = changed(table, draw.randrange(len(table)), draw.choice([0, 1, 2, end, draw.randrange(9), GREATEST]))
    if not draw.randrange(8):
        table = table[:draw.randrange(len(table))]
    made.append((table, draw.choice([draw.randrange(end + 2), draw.randrange(end + 2), draw.randrange(end + 2), GREATEST])))
with open(cases, 'w') as to_cases, open(kept, 'w') as to_kept:
    for table, position in made:
        text = ' '.join(map(str, table))
        to_cases.write(f'n {len(text)} {position}\n{text}')
        to_kept.write(f'{search(table, position)}\n\n')
