"""strings.py COUNT SEED: cases of entry (e), string tokens good and bad, in the form of the drivers."""
import random, sys

count, seed = int(sys.argv[1]), int(sys.argv[2])
draw = random.Random(seed)
pieces = [b'a', b'Z', b' ', b'0', b"'", b'\n', b'\t', b'\r', b'\x00', b'\x7f', b'\x80', b'\xff', b'"', b'\\', b'\\n', b'\\r', b'\\t', b'\\\\',
          b'\\0', b"\\'", b'\\"', b'\\q', b'\\\n', b'\\x41', b'\\x7f', b'\\x80', b'\\x7', b'\\xg0', b'\\u{41}', b'\\u{e9}', b'\\u{20ac}',
          b'\\u{1f600}', b'\\u{10ffff}', b'\\u{110000}', b'\\u{d7ff}', b'\\u{d800}', b'\\u{dfff}', b'\\u{e000}', b'\\u{7f}', b'\\u{80}',
          b'\\u{7ff}', b'\\u{800}', b'\\u{ffff}', b'\\u{10000}', b'\\u{}', b'\\u{_1}', b'\\u{1_}', b'\\u{1_2_3}', b'\\u{0000001}',
          b'\\u{000001}', b'\\u{12', b'\\u41', b'\\U{41}', b'{', b'}']
tokens = [b'', b'"', b'""', b'"""', b'a', b"'a'", b'"\\"', b'"\\\\"', b'"a" ', b' "a"', b'"' + b'a' * 65533 + b'"', b'"' + b'a' * 65534 + b'"']
tokens += [b'"' + p + b'"' for p in pieces]
while len(tokens) < count:
    inside = b''.join(draw.choice(pieces) for _ in range(draw.randrange(1, 6)))
    tokens.append(draw.choice([b'"%s"', b'"%s"', b'"%s"', b'%s"', b'"%s']) % inside)
for token in tokens:
    room = draw.choice([len(token), len(token), len(token), 0, 1, 2])
    sys.stdout.buffer.write(b'e %d %d\n' % (len(token), room) + token)
