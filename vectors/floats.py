"""floats.py COUNT SEED: cases of entry f, float literals good and bad, in the form of the drivers."""
import random, sys

count, seed = int(sys.argv[1]), int(sys.argv[2])
draw = random.Random(seed)
texts = ['', '0.1', '0.1f32', '1f32', '1f64', '1', '1.5', '1.5f32', '1.5f64', '00.5', '1_f32', '1.5_f32', '1_0.2_5', '0.0', '0f32', '300f32',
         # no float with a value, or not alone
         '1.', '.', '.5', '_.5', '1._5', '1.f32', '.f32', '1.5 ', ' 1.5', '-1.5', '+1.5', '1.5//', '1.5\n', '1 .5', '0x1f32', '0x1.5', '1e5', '1.5e3', '1.5E3',
         '1.2.3', '1.2.3.4', '1.2.3.', '1::2', '1:2:f32', '1.5u8', '1.5i64', '1u8', '1.5f16', '1.5f32f32', '1.5F32', '1.5f', 'f32', 'AS1', 'true', '"1.5" ', "'1' ",
         'inf', 'nan', '1.5f3_2', '1.5\x00', '1.5\x80', '\u00b9.5',
         # 19 digits
         '1.000000000000000000', '1.0000000000000000000', '0.' + 19 * '0', '0.' + 20 * '0', '0.' + 18 * '0' + '1', '0.' + 19 * '0' + '1', 23 * '0' + '.5',
         19 * '9' + 'f64', 19 * '9' + 'f32', 19 * '9' + '.0', '1' + 19 * '0' + 'f64', '1' + 19 * '0' + '.0', '9.' + 18 * '9', '9.' + 19 * '9', '0.' + 19 * '9', '00.' + 19 * '9',
         '1_234_567_890_123_456_789f64', '12345678901234567890', '12345678901234567890f16', '12345678901234567890.0f16', '12345678901234567890.0f32',
         # ties, and what an f64 between would change
         '9007199254740992.0', '9007199254740993.0', '9007199254740993.1', '9007199254740994.0', '9007199254740995.0', '16777217f32', '16777219f32', '16777217.5f32',
         '16777217.00000000001f32', '16777218.99999999999f32', '9007199791611905f32', '0.00002712892001f32', '0.00003760474101f32', '0.5f32', '0.50000002980232238f32',
         '1.00000005960464477f32', '1.000000059604644775f32', '1.000000059604644776f32']
for length in (65535, 65536):
    texts += ['0' * (length - 4) + '1f64', '1' + '_' * (length - 4) + 'f32']
for power in range(64):
    texts += [f'{2 ** power + step}{suffix}' for step in (-1, 0, 1) for suffix in ('.0', 'f32')]
for places in range(1, 20):
    texts += [f'0.{number:0>{places}}{suffix}' for number in (5 ** places - 1, 5 ** places, 5 ** places + 1) for suffix in ('', 'f32')]
    texts += [f'0.{1:0>{places}}', f'0.{1:0>{places}}f32']


def literal():
    digits = draw.randrange(1, 22)
    text = ''.join(draw.choice('0123456789') + draw.choice(['', '', '', '', '', '_']) for _ in range(digits))
    if draw.randrange(4):
        at = draw.randrange(1, len(text) + 1)
        text = text[:at] + '.' + text[at:]
    return draw.choice(['', '', '0', '000']) + text + draw.choice(['', 'f32', 'f64', 'f32'])


def damaged(text):
    at, byte = draw.randrange(len(text)), draw.choice('0123456789._f326xeASu: -\n/"')
    return draw.choice([text[:at] + byte + text[at + 1:], text[:at] + text[at + 1:], text[:at] + byte + text[at:]])


while len(texts) < count:
    text = literal()
    texts.append(damaged(text) if draw.randrange(4) == 0 else text)
for text in texts:
    token = text.encode('latin-1')
    sys.stdout.buffer.write(b'f %d\n' % len(token) + token)
