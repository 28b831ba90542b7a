"""tables.py w|o COUNT RECORDED ..: cases of entry w, the file of a source, or of entry o, its file by the old grammar: made ones, and the first COUNT short texts of
each of the recorded cases.
   tables.py checks COUNT SEED FILES ANSWERS: cases of entry t, files checked: made ones, and the files among the answers to cases of entry o, whole and changed
in one place, COUNT in all (document 02, C-21 and C-22)."""
import random, struct, sys

LONGEST, SHORT = 65535, 60
NUMBER, WIDTH, INDEX = 8, 7, 4
CONST = b'const A: u8 = 1;'
made_sources = [b'', b' ', b'//', CONST, CONST * 2, b'import a;', b'import a.{b,c};', b'test t{}', b'test t{}' * 3, b'fn f(){import a;}test t{}fn g(){}', b'const A:b=f"a{1}";',
                b'const A: u64 = 18446744073709551615u64;', b'const A: I = ::ffff:1.2.3.4;', b'const', b'const A', b'x', b'$', b'f"a"', b'#!', b'\x80', b'#!\xff', b'const A: u8 = 300u8;',
                b'fn f(){1=2;}', b'const A:b=' + b'!' * 33 + b'a;', b'fn f() {', b'filter f(a: b) {accept}']


def cases_of(path):
    """The sources of recorded cases."""
    text, at = open(path, 'rb').read(), 0
    while at < len(text):
        line = text.index(b'\n', at) + 1
        end = line + int(text[at:line].split()[1])
        yield text[line:end]
        at = end


def writes(entry, count, recorded):
    listed = [(source, None) for source in made_sources]
    # The file of CONST has 424 bytes; the others are longer than a buffer is that the tests have, but they are refused.
    listed += [(CONST, room) for room in (0, 1, 423, 424, 425)] + [(b'', 67), (b'', 68), (b'x', 0)]
    listed += [(b' ' * LONGEST, 0), (b' ' * LONGEST, 60000), (b' ' * (LONGEST + 1), 0)]
    for path in recorded:
        listed += [(source, None) for source in [source for source in cases_of(path) if len(source) <= SHORT][:count]]
    for source, room in listed:
        sys.stdout.buffer.write(b'%s %d%s\n' % (entry, len(source), b'' if room is None else b' %d' % room) + source)


def count(n):
    return struct.pack('<I', n)


def file(source, rows, indexes):
    """Of rows of seven numbers."""
    numbers = b''.join(struct.pack('<7Q', *row) for row in rows)
    return count(len(source)) + source + count(len(rows)) + numbers + count(len(indexes)) + b''.join(map(count, indexes))


def sections(whole):
    """The parts of a file of ours."""
    size = struct.unpack_from('<I', whole)[0]
    at = 4 + size
    rows = struct.unpack_from('<I', whole, at)[0]
    behind = at + 4 + rows * WIDTH * NUMBER
    many = struct.unpack_from('<I', whole, behind)[0]
    return (whole[4:at], [struct.unpack_from('<7Q', whole, at + 4 + i * WIDTH * NUMBER) for i in range(rows)],
            list(struct.unpack_from('<%dI' % many, whole, behind + 4)))


def made(files):
    """Document 02's words and the decisions on them, over the files of a few sources."""
    yield from (bytes(n) for n in range(14))
    for n in (1, 2 ** 29, 2 ** 29 + 1, 2 ** 31, 2 ** 32 - 4, 2 ** 32 - 1):
        yield from (count(n), count(n) + bytes(8), count(n) * 3, bytes(4) + count(n) + bytes(4), bytes(8) + count(n), bytes(4) + count(n) + bytes(60), bytes(8) + count(n) + bytes(4))
    source, rows, indexes = sections(files[CONST])
    whole = files[CONST]
    yield from (file(source, rows[:n], indexes) for n in range(len(rows)))
    yield from (file(source, rows[:at] + rows[at + 1:], indexes) for at in range(len(rows)))
    yield from (file(source, rows + [row], indexes) for row in ((0,) * WIDTH, rows[-1]))
    yield from (file(source, rows, other) for other in ([], [4], [6], [5, 5], [0], [5, 6], [2 ** 32 - 1], [5 + 2 ** 16]))
    for row in range(len(rows)):
        for at in range(WIDTH):
            for number in (rows[row][at] + 1, rows[row][at] + 2 ** 32, 2 ** 64 - 1):
                yield file(source, rows[:row] + [rows[row][:at] + (number,) + rows[row][at + 1:]] + rows[row + 1:], indexes)
    yield from (whole[:-1], whole[:-4], whole + b'\0', whole + bytes(4), whole[1:], whole[::-1])
    # The source's own refusal comes before 18 and 19, and 17 before it.
    for text in (b'const', b'x', b'$', b'#!', b'\x80', b'fn f(){1=2;}'):
        yield from (file(text, [], []), file(text, rows, []), file(text, [], [7]), file(text, [], [])[:-1], file(text, [], []) + b'\0')
    too_long = file(b' ' * (LONGEST + 1), [], [])
    yield from (too_long, too_long[:-1], file(b' ' * LONGEST, [(43, 0, LONGEST, 0, 0, 0, 1)], []), file(b' ' * LONGEST, [], []))
    nested, rows, indexes = sections(files[b'fn f(){import a;}test t{}fn g(){}'])
    yield from (file(nested, rows, indexes[:n]) for n in range(len(indexes)))
    # The import inside the block is no declaration.
    inner = next(i for i, row in enumerate(rows) if row[0] == 39)
    yield from (file(nested, rows, [inner] + indexes), file(nested, rows, indexes[:1] + indexes[2:]), file(nested, rows, indexes[::-1]), file(nested, rows, indexes + [len(rows) - 1]))


def changed(draw, whole):
    source, rows, indexes = sections(whole)
    how = draw.randrange(8)
    if how < 3:
        # A byte, or the low one of a number.
        at = draw.randrange(len(whole)) if how else 4 + len(source) + 4 + NUMBER * draw.randrange(WIDTH * len(rows))
        return whole[:at] + bytes([whole[at] ^ 1 << draw.randrange(8)]) + whole[at + 1:]
    if how == 3:
        return whole[:draw.randrange(len(whole))]
    if how == 4:
        return whole + bytes(draw.choice((1, 4, NUMBER, WIDTH * NUMBER)))
    if how == 5:
        at = draw.randrange(len(rows))
        return file(source, rows[:at] + rows[at + draw.randrange(2):at + 1] * draw.randrange(3) + rows[at + 1:], indexes)
    if how == 6:
        return file(source, rows, draw.choice([indexes[:-1], indexes[1:], indexes + [len(rows)], [index + draw.randrange(2) for index in indexes]]))
    at = draw.randrange(len(source) + 1)
    return file(source[:at] + draw.choice([b'', b' ', b'a', b';', b'$']) + source[at + draw.randrange(2):], rows, indexes)


def checks(many, seed, recorded, answers):
    draw = random.Random(seed)
    blocks = open(answers).read().split('\n\n')
    files = {source: bytes.fromhex(block.split('\n')[1]) for source, block in zip(cases_of(recorded), blocks) if block.startswith('accepted')}
    listed = list(files.values()) + list(made(files))
    while len(listed) < many:
        listed.append(changed(draw, draw.choice(list(files.values()))))
    for one in listed:
        sys.stdout.buffer.write(b't %d\n' % len(one) + one)


if sys.argv[1] in ('w', 'o'):
    writes(sys.argv[1].encode(), int(sys.argv[2]), sys.argv[3:])
else:
    checks(int(sys.argv[2]), int(sys.argv[3]), *sys.argv[4:])
