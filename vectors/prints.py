"""prints.py: prints cases of entry p, the print of a source (C-20): each form in each place of a filter, with and without parentheses, two of them
together; declarations; f-strings and literals; layouts of one tree; limits of the print; rooms."""
import sys


def case(source, *room):
    words = [len(source), *room]
    sys.stdout.write('p ' + ' '.join(str(word) for word in words) + '\n' + source)


FORMS = [
    'a', 'a.b', '1', '"s"', 'f"x{ a }y"', 'a{}', 'a{x:1}', '{}', '{b}', '{x:1}', '!a', '-a', 'a()', 'a(b,c)', 'a?', 'a+b', 'a==b', 'a&&b', 'a not in b',
    'a=b', 'return', 'return a', 'accept', 'reject a', 'if a {}', 'if a {b} else {c}', 'while a {}', 'for a in b {}', 'match a {b=>c}', 'match a {_=>{}}',
]
PLACES = [
    'const A:b=%s;', 'fn f(){%s}', 'fn f(){%s;}', 'fn f(){%s;a}', 'fn f(){let a=%s;}', 'fn f(){if %s {}}', 'fn f(){while %s {}}', 'fn f(){for a in %s {}}',
    'fn f(){match %s {b=>c}}', 'fn f(){match a {b=>%s}}', 'fn f(){match a {b=>%s,c=>d}}', 'fn f(){match a {b if %s=>c}}', 'fn f(){g(%s)}', 'fn f(){a{x:%s}}',
    'fn f(){!%s}', 'fn f(){%s+1}', 'fn f(){1+%s}', 'fn f(){%s.x}', 'fn f(){%s()}', 'fn f(){%s?}', 'fn f(){return %s}', 'fn f(){a=%s}', 'fn f(){f"{%s}"}',
]
DECLARATIONS = [
    '', 'import a;', 'import a.b;', 'import a.{b};', 'import a.{b,c.d,};', 'import a.{b.{c},d};', 'import super.a;', 'const A:b?=1;', 'const A:{x:a,y:b}=1;', 'const A:()=1;', 'const A:!=1;',
    'fn f(a:b,c:d)->e{}', 'fn f(a:b,){}', 'filter f(){}', 'filtermap f(a:b){accept}', 'test t{}', 'test t{accept}test u{}', 'fn f(){import a;b}',
]
LITERALS = ['0', '1_0', '0x0F', '1u8', '1.50', '1e3', '2f32', 'true', 'AS1', '1.2.3.4', '::1', '10.0.0.0/8', '"a\\n"', "'a'", '"//"', 'f"{{}}"', 'f"a{1//c\n}"']
LAYOUTS = ['fn f(){a+b}', ' fn\tf ( ) {\r\na //c\n + b }', 'fn f(){((a)+((b)))}', '// a\nfn f(){a+b}// b']

for place in PLACES:
    for form in FORMS:
        case(place % form)
        case(place % f'({form})')
for declaration in DECLARATIONS:
    case(declaration)
    case(f'{declaration}\n// c\nconst Z:b=1;')
for literal in LITERALS:
    case(f'const A:b={literal};')
for layout in LAYOUTS:
    case(layout)
for before in range(30, 34):
    case(f'const A:b={"!" * before}a;')
    case(f'const A:b={"-" * (before - 8)}({"!" * 8}a);')
    case(f'fn f(){{if {"!" * (before - 4)}({"!" * 4}(if a {{}})) {{}}}}')
for brackets in range(30, 34):
    case(f'const A:b={"(" * brackets}a{")" * brackets};')
    case(f'const A:b={"{" * brackets}a{"}" * brackets};')
for size in (65513, 65514, 65515, 65516, 65517, 65518, 65524):
    case(f'const A:b="{"x" * size}";')
case('const A:b=a' + '+a' * 300 + ';')
case('const A:b=' + 'a-(' * 31 + 'a' + ')' * 31 + ';')
for source in ('const A:b=1;', 'test t{}', '', 'const'):
    for room in (0, 1, 10, 11, 17, 18, 19):
        case(source, room)
case('\x7f')
case('#!')
