"""salvages.py: prints cases of entry s, a broken source salvaged (C-23): declarations cut at each byte, unclosed texts and brackets between good
lines, each word at a line's start, the whole refusals, and rooms for rows and ranges."""
import sys


def case(source, *rooms):
    words = [len(source), *rooms]
    sys.stdout.write('s ' + ' '.join(str(word) for word in words) + '\n' + source)


GOOD = ['import a;', 'const A: u8 = 1;', 'fn f() {}', 'filter g() { accept }', 'filtermap h() { reject }']
CUT = [
    'const A: s = "a\\"b";\nfn f() {}\n',
    'fn f(a: u8) {\n    g("x", f"y{a}z")\n}\nimport a;\n',
    'filter f() { if a { accept } }\nconst B: b = (1 + 2);\n',
]
OPEN = ['"', "'", 'f"', 'f"{', 'f"a{b', '{', '(', '[', '}', ')', ']', '{{', '}}', ';', '= 1', '// {', '$', '\\', 'x', '1', 'test t {}', 'record', 'else']
LINES = ['const', 'fn', 'filter', 'filtermap', 'import', 'test', 'record', 'enum', 'let', 'constx', 'fn1', 'fn_', 'fn(', 'fn\t', 'fn//', 'filterm', ' fn', '\rfn', 'Fn', 'importfn']
ROOMS = ['x', 'x\nfn(', 'import a;', 'fn f() {\nfn g() {}', 'x\nimport a;\ny\nfn f() {}\nz', '#!', '']

for text in CUT:
    for at in range(len(text) + 1):
        case(text[:at])
        case(text[at:])
        case(text[:at] + '\nfn h() {}')
for bad in OPEN:
    for good in GOOD:
        case(f'{good}\n{bad}\n{good}')
        case(f'fn f() {{\n{bad}\n{good}\n}}')
for line in LINES:
    case(f'x\n{line}')
    case(f'x\n{line} a;\nfn f() {{}}')
    case(f'fn f() {{ "\n{line} a;\n" }}')
for source in ROOMS:
    for rows in (0, 1, 3, 4, 7, 8, 10):
        case(source, rows)
        for ranges in range(4):
            case(source, rows, ranges)
case(' ' * 65535)
case(' ' * 65535 + 'x')
case("fn \x7f\n")
case('fn\n' * 300)
case('fn\n' * 300, 1, 299)
case('fn f() {}\n}\n' * 40)
