"""readings.py DEEPEST RECORDED ..: cases of entries (a) and (b) in the form of the drivers: document 01's worked pairs and its printer's
source, each form, literals with every suffix and at the edges of every type, addresses with a dotted end, f-strings, the limits alone and together, the longest sources, the one that nests deepest, little room,
and the short ones among recorded cases."""
import itertools, sys

LONGEST, ROOM, SHORT, KEPT = 65535, 10000, 70, 1500
WIDTH = 7  # numbers of a row
DEPTHS = (31, 32, 33, 34)
PRINTER = b'const A: u8 = 1;'

pairs = [b'AS4294967295', b'AS4294967296', b'18446744073709551615u64', b'300u8', b'1.2.3.', b'::1', b'::ffff:1.2.3.4', b'"a"', b'"a" ', b'1+2*3',
         b'a==b==c', b'if x {y: 1} {}', b'1+2', b'(' * 33, b'f"a"', b'1 $', b'1=2', b'{if a {} -b}', b'f(x {y: 1})', b'if f(x {y: 1}) {}', b'-(a)']

forms = [b'match x {_ => 1}', b'match x {_ if y => 1, A => {} B(c, d,) if z {q: 1} => 2}', b'match x {_(a) => 1}', b'match x {A => 1 B => 2}',
         b'match x {A => {}, _ => {},}', b'match x {A() => {y: 1}}', b'{let _: a.b[c, d,]? = 1; import a.{b, c.{d}}; 1}', b'{if a {}; while b {} for c in d {} match e {}}',
         b'{if a {}.b}', b'{(if a {}).b}', b'a.b(c, 1,)?.d', b'((a)) += 1', b'(a.b)()=1', b'a = b = c', b'a = return', b'1 + return', b'return return', b'if return {} {}',
         b'while a {b: 1} {}', b'for a in (b {c: 1}) {}', b'{a: 1, b: 2,}', b'{a}', b'{}', b'a {}', b'a||b&&c<d+e*-f', b'a-b-c', b'a<b>c', b'!a?', b'--a', b'a.1']
declarations = [b'fn f() {}', b'fn f(a: {b: !, c: ()?},) -> a.b[c, d,] {}', b'fn f(a) {}', b'filter f(a: b) {accept}', b'filtermap f() {reject}', b'test t {}', b'test t() {}',
                b'import pkg.dep.super.std;', b'import a.{b, c.{d, e}};', b'import a.{b,};', b'import a.{};', b'const A: ! = {};', b'const A: () = a = 1;', b'const A = 1;',
                b'record A {}', b'enum A {}', b'fn record() {}', PRINTER * 2 + b'//']

suffixes = [b'', b'i8', b'i16', b'i32', b'i64', b'u8', b'u16', b'u32', b'u64', b'f32', b'f64', b'i', b'u128', b'f16', b'I8', b'u8_', b'e5', b'_u8', b'x']
bodies = [b'0', b'7', b'300', b'007', b'1_0', b'1__', b'9223372036854775807', b'9223372036854775808', b'1.5', b'1.', b'1.5_', b'1.2.3', b'0.0', b'1._5']
literals = [body + suffix for body in bodies for suffix in suffixes]
# The greatest value of each type, one less and one more, under every suffix; under a sign; with zeros and underscores.
greatest = [2 ** (bits - sign) - 1 for sign in (1, 0) for bits in (8, 16, 32, 64)]
literals += [b'%d%s' % (n + more, suffix) for n in greatest for more in (-1, 0, 1) for suffix in suffixes[:11]]
edges = list(zip(greatest, suffixes[1:9]))
literals += [b'-%d%s' % (n + more, suffix) for n, suffix in edges for more in (0, 1)]
literals += [b'00_%s%s' % (b'_'.join(b'%c' % d for d in b'%d' % (n + more)), suffix) for n, suffix in edges for more in (0, 1)]
literals += [b'0x', b'0x0', b'0xfF', b'0x_1', b'0xg', b'0x7fffffffffffffff', b'0x8000000000000000', b'0x007fffffffffffffff', b'0x1u8', b'0X1',
             b'AS', b'AS0', b'AS007', b'AS1', b'AS4294967295', b'AS4294967296', b'AS00004294967296', b'AS1_0', b'AS1a', b'as1', b'ASx',
             b'0.0.0.0', b'255.255.255.255', b'256.0.0.0', b'0.0.0.256', b'01.2.3.4', b'1.2.3.04', b'00.0.0.0', b'1.2.3', b'1.2.3.', b'1.2.3.4.5', b'1.2.3.4a',
             b'1.2.3.0004', b'1..2.3', b'::', b'::1', b'1::', b':::', b'1:2:3:4:5:6:7:8', b'1:2:3:4:5:6:7', b'1:2:3:4:5:6:7:8:9', b'1::2::3', b'1:2:3:4:5:6:7::',
             b'::2:3:4:5:6:7:8', b'1::3:4:5:6:7:8', b'1:2:3:4::5:6:7:8', b'ffff:FFFF::', b'12345::', b'g::', b':1', b'1:', b'a:b', b'1:2:', b'::1.2.3.4', b'::1g',
             b'true', b'false', b'True', b'true1', b'true ', b'!false', b"'a' ", b"'a'", b"'' ", b"'ab' ", b"'\\n' ", b"'\\'' ", b"'\\\\' ", b"'\\\"' ", b"'\\0' ", b"'\\q' ",
             b"'\\x41' ", b"'\\x7f' ", b"'\\x80' ", b"'\\u{0}' ", b"'\\u{10ffff}' ", b"'\\u{110000}' ", b"'\\u{d800}' ", b"'\\u{1_0}' ", b"'\\u{}' ",
             b"'\n' ", b"'\t' ", b"'\r' ", b"'\"' ", b"'\\", b"'a"]

# Addresses with a dotted end (document 02, C-16): groups before a quad, with a `::` at each place and without; ends that are none; what follows.
quads = [b'7.8.9.10', b'0.0.0.0', b'255.255.255.255', b'256.0.0.0', b'1.2.3.256', b'01.2.3.4', b'1.2.3.04', b'1.2.3.0004', b'12345.1.1.1', b'1.2', b'1.2.3', b'1.2.3.', b'1..2.3', b'.1.2.3',
         b'a1.2.3.4', b'1a.2.3.4', b'1.2.3.4.5', b'1.2.3.4.a', b'1.2.3.4a', b'1.2.3.4:5', b'1.2.3.4::', b'1.2.3.4 .a']
groups = [b'%x' % n for n in range(1, 8)]
fronts = [b':'.join(groups[:n]) + b':' for n in range(1, 8)] + [b':'.join(groups[:n]) + b'::' + b''.join(g + b':' for g in groups[n:m]) for m in range(8) for n in range(m + 1)]
literals += [front + quads[0] for front in fronts] + [front + quad for front in (b'::', b'::ffff:', b'1:2:3:4:5:6:', b'a:1:', b':', b'1:', b':::') for quad in quads]
literals += [b'0:0:0:0:0:0:13.1.68.3', b'0:0:0:0:0:FFFF:129.144.52.38', b'::13.1.68.3', b'::FFFF:129.144.52.38', b'1:1:1.1.1.1:1:1', b'1:1.1.1.1:1.1.1..', b'{a:b::1.2.3.4}', b'a(::1.2.3.4, 1)']

# F-strings (document 02, C-11): in each place where one may or may not stand, `@` being a whole one, an empty one, one without end and one with a bad text.
whole = [b'f"a{1}"', b'f""', b'f"', b'f"\\q"']
places = [b'@', b'(@)', b'-@', b'!@', b'@?', b'@.a', b'@()', b'a(@)', b'a(1, @,)', b'@+1', b'1+@', b'@==@', b'a=@', b'@=1', b'a+=@', b'@+=1', b'{@}', b'{@;}', b'{@;1}', b'{1;@}',
          b'{let a = @;}', b'{let @ = 1;}', b'{let a: @ = 1;}', b'if @ {}', b'while @ {}', b'for a in @ {}', b'for @ in a {}', b'match @ {}', b'match a {@ => 1}', b'match a {b => @}',
          b'match a {b => @, c => 1}', b'match a {b if @ => 1}', b'match a {b(@) => 1}', b'{a: @}', b'a {b: @}', b'{@: 1}', b'a {@: 1}', b'return @', b'accept reject @', b'a.@', b'a @',
          b'@ @', b'@ a', b'@ $', b'if a {@} else {@}', b'f"{@}"', b'f"b{ @ }c"', b'f"@"', b'"@" ']
f_strings = [place.replace(b'@', text) for place in places for text in whole]
# Each text alone, before a hole and behind one.
pieces = [b'\\n', b'\\0', b'\\"', b"\\'", b'\\x7b', b'\\x7b\\x7b', b'\\x7b\\x7d', b'\\u{7d}}', b'{{\\x7b', b'}}}', b'{{}}', b'\\u{e9}', b'\\u{10ffff}', b'\\u{1_}', b'//', b'\n\t',
          b'\\q', b'\\x', b'\\x4', b'\\x80', b'\\u', b'\\u41', b'\\u {41}', b'\\u{}', b'\\u{_1}', b'\\u{d800}', b'\\u{110000}', b'\\u{1234567}', b'\\u{"}', b'\\u{{41}', b'\\u{41',
          b'\\U', b'\\U{41}', b'\\{1}', b'\\\n', b'\r', b'\\', b'\x7f', b'\x80']
f_strings += [b'f"' + before + piece + after + b'"' for piece in pieces for before, after in ((b'', b''), (b'', b'{1}'), (b'{1}', b''))]
holes = [b'', b' ', b'a b', b'a;', b'a,', b'a:1', b'a:b:c', b'a=', b'a=1', b'1=', b'$', b'0x', b'"', b'"b"', b'"}', b'"}" ', b'return', b'return f"a"', b'if a {} -b', b'{y:1}', b' {y:1} ', b' {f"a"} ', b'x{}',
         b'x{y:1}', b'a//}"\n', b'\ra\n', b'f"{f"{1}"}"', b'{', b'}', b')', b'(1', b'()', b'if x{y:1}{}']
f_strings += [before + b'f"{' + hole + b'}"' + after for hole in holes for before, after in ((b'', b''), (b'if ', b' {}'))]
prefixed = [b'f"a{b}c" ', b'f"\\u{7b}{{}}{"s"} {f"x{1}"}" ', b'{f"{ {a: 1} }"; return f"}" + f"\\\\"}']
f_strings += [text[:n] for text in prefixed for n in range(len(text) + 1)]
f_strings += [b'f"' + b''.join(order) for n in range(5) for order in itertools.product((b'"', b'{', b'}', b'a'), repeat=n)]
declared = [b'const A: u8 = f"a";', b'const A: u8 = ((f"{1}")) ;', b'const A: u8 = f"a"', b'const A: u8 = f"a;', b'const f"a": b = 1;', b'const A: f"a" = 1;', b'fn f() {f"a"}', b'fn f() {f";"}', b'fn f() {} f"',
            b'fn f"a"() {}', b'fn f(a: f"b") {}', b'f"a"', b'import f"a";', b'import a.{f"b"};', b'test t {f"{a}";}', b'filter f() {reject f"{x}"}',
            b'fn f(p: Peer) { log(f"peer {p.asn} down after {p.hold_time}s: {p.reason}"); }']

# The four limits: each makes a source that goes so deep, round another.
around = {
    'parentheses': lambda n, x: b'(' * n + x + b')' * n,
    'blocks': lambda n, x: b'{' * n + x + b'}' * n,
    'calls': lambda n, x: b'f(' * n + x + b')' * n,
    'records': lambda n, x: b'{a:' * n + x + b'}' * n,
    'nots': lambda n, x: b'!' * n + x,
    'signs': lambda n, x: (b'!-' * n)[:n] + x,
    'returns': lambda n, x: b'return ' * n + x,
    'mixed': lambda n, x: (b'return accept reject ' * n)[:7 * n] + x,
    'ifs': lambda n, x: b'if ' * n + x + b'{}' * n,
    'whiles': lambda n, x: b'while ' * n + x + b'{}' * n,
    'fors': lambda n, x: b'for a in ' * n + x + b'{}' * n,
    'matches': lambda n, x: b'match ' * n + x + b'{}' * n,
    'bracketed': lambda n, x: b'while (' * n + x + b'){}' * n,
    'chain': lambda n, x: b'if a{}' + b'else if a{}' * n + b'else{' + x + b'}',
    'bodies': lambda n, x: b'if a{' * n + x + b'}' * n,
    'arms': lambda n, x: b'match a{b=>' * n + x + b'}' * n,
    'guards': lambda n, x: b'match a{b if ' * n + x + b'=>c}' * n,
    'holes': lambda n, x: b'f"{ ' * n + x + b'}"' * n}
limits = [f(n, x) for f in around.values() for n in DEPTHS for x in (b'a', b'', b'0x')]
together = ('parentheses', 'blocks', 'signs', 'returns', 'ifs', 'fors', 'chain', 'holes')
limits += [around[f](n, around[g](m, b'a')) for f, g in itertools.permutations(together, 2) for n in DEPTHS for m in DEPTHS]
limits += [around['chain'](32, around['ifs'](32, around['parentheses'](n, around['signs'](32, b'a')))) for n in (30, 31, 32)]
trees = [b'import ' + b'a.{' * n + b'a' + b'}' * n + b';' for n in DEPTHS]
trees += [b'const A: ' + b'a[' * n + b']' * n + b' = 1;' for n in DEPTHS]
trees += [b'const A: ' + b'{a:' * n + b'!' + b'}' * n + b' = 1;' for n in DEPTHS]
trees += [b'fn f() ' + around['blocks'](n, b'') for n in DEPTHS]


def filled(before, fill, after, length=LONGEST):
    room = length - len(before) - len(after)
    return before + (fill * (room // len(fill) + 1))[:room] + after


long = [(b'a', filled(b'', b' ', b'')), (b'a', filled(b'', b' ', b'', LONGEST + 1)), (b'a', filled(PRINTER, b'\n', PRINTER)),
        (b'b', filled(b'', b'9', b'u64')), (b'b', filled(b'', b'0', b'255u8')), (b'b', filled(b'', b'0', b'256u8')), (b'b', filled(b'', b'name', b'')), (b'b', filled(b'"', b'text ', b'" ')), (b'b', filled(b'', b'a+', b'a')), (b'a', filled(b'//', b'-', b'\n' + PRINTER, LONGEST - 1)),
        (b'b', filled(b'f"', b'{', b'')), (b'b', filled(b'f"', b'{', b'"')), (b'b', filled(b'f"', b'{a}', b'"')), (b'b', filled(b'', b' ', b'f"'))]

cases = [(entry, source, ROOM) for entry, source in [(b'a', b''), (b'a', PRINTER), (b'a', b'#!a'), (b'a', b'\xff'), (b'a', b'const A: u8 = f""'), (b'a', open(sys.argv[1], 'rb').read())] + long]
cases += [(b'b', source, ROOM) for source in pairs + forms + literals + f_strings + limits] + [(b'a', source, ROOM) for source in declarations + declared + trees]
# A table has WIDTH numbers for each row of the room and as many more as the source's length leaves by WIDTH: 0 to 6 without room.
cases += [(entry, b'1' * n, 0) for entry in (b'a', b'b') for n in range(WIDTH)]
cases += [(b'b', b'1+2', room) for room in range(5)] + [(b'a', PRINTER, room) for room in range(9)] + [(b'b', b'f"a{1}b"' + b' ' * room, room) for room in range(7)]
for name in sys.argv[2:]:
    recorded, at, kept = open(name, 'rb').read(), 0, 0
    while at < len(recorded) and kept < KEPT:
        line = recorded.index(b'\n', at) + 1
        header = recorded[at:line].split()
        at = line + int(header[1])
        if at - line <= SHORT and recorded[line:line + 1] != b'"':
            cases.append((header[0], recorded[line:at], min(int(header[2]), ROOM) if len(header) > 2 else ROOM))
            kept += 1
for entry, source, room in cases:
    sys.stdout.buffer.write(b'%s %d %d\n' % (entry, len(source), room) + source)
