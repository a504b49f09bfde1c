"""Files as text: both ways, what is refused, and that the library finds good what is read."""
import random
import unittest

from .support import ACL, BUNDLE, CRATES, DAY, FAILING_ACL, FAILING_BUNDLE, GROUP, KM0, REDUCE, record, use

from akubolinfe import Converted, Ledger, Text, attest, fault, prepare, trim

H, I = 'ab' * 20, '0123456789abcdef0123' * 2
KINDS = ('request', 'requests', 'bundle', 'hints')

GOOD = {
    'request': (
        'use Sign time 0\n',
        f'use UseAsLoaderKey time 18446744073709551615\ncertificate {H} mechanism 1\ndelegation from {H} to {I}\n',
        f'blob kmhash {H} time 5\n',
        f'blob kmhash {H} token {I} needed 2 total 64 seconds 4294967295 time 5\n',
        f'blob kmhash {H} token {I} AllowSoftSlots needed 1 total 1 seconds 0 blobfile time 5\nblobfile devices 2147483648\n',
        f'recovery kahash {H} mechanism 65535 time 5\n',
        f'recovery kahash {H} mechanism 4 blobfile time 5\nblobfile devices 1 template {I}\ncertificate {I} mechanism 3\n',
        'use Sign time 1\n' + f'certificate {H} mechanism 1\n' * 32 + f'delegation from {H} to {I} Sign UseAsLoaderKey\n' * 16,
    ),
    'requests': ('', f'use Sign time 1\nblob kmhash {H} time 2\nrecovery kahash {H} mechanism 1 time 0\n', 'use GetACL time 7\n' * 1000),
    'bundle': (
        'policy suite 0 approach 1 protection 1\n',
        'policy suite 255 approach 2 signing encryption csr protection 4\n',
        f'fact warrantESN {H}\n' + f'fact modulekey {I}\n' * 32 + 'signature warrant good\nsignature keygeneration bad\npolicy suite 3 approach 2 protection 3\n',
    ),
    'hints': ('', 'hint group 255 actions 0 1 2 3 4 5 6 255\n' * 64),
}

# A text, and the number of its first bad line.
BAD = {
    'request': (
        ('', 1), ('use Sign time 01\n', 1), ('use Sign time 18446744073709551616\n', 1), ('use sign time 1\n', 1), ('use Sign time 1', 1),
        ('use  Sign time 1\n', 1), ('use Sign time 1 \n', 1), (' use Sign time 1\n', 1), ('\n', 1), ('use Sign time 1\r\n', 1), ('use Sign time 1\n\n', 2),
        (f'certificate {H} mechanism 1\n', 1), (f'use Sign time 1\ncertificate {H} mechanism 0\n', 2), ('use Sign time 1\nuse Sign time 1\n', 2),
        (f'use Sign time 1\ncertificate {H.upper()} mechanism 1\n', 2), (f'use Sign time 1\ncertificate {H}\n', 2),
        (f'use Sign time 1\ncertificate {H} mechanism 65536\n', 2), (f'use Sign time 1\ndelegation from {H} to {I} Verify Sign\n', 2),
        (f'use Sign time 1\ndelegation from {H} to {I} Sign Sign\n', 2), (f'use Sign time 1\ndelegation from {H} to {I} Read\n', 2),
        (f'use Sign time 1\ndelegation from {H} to {I}\ncertificate {H} mechanism 1\n', 3),
        ('use Sign time 1\n' + f'certificate {H} mechanism 1\n' * 33, 34), ('use Sign time 1\n' + f'delegation from {H} to {I}\n' * 17, 18),
        (f'blob kmhash {H} blobfile time 5\n', 2), (f'blob kmhash {H} blobfile time 5\nblobfile devices 3\n', 2),
        (f'blob kmhash {H} blobfile time 5\nblobfile devices 0\n', 2), (f'blob kmhash {H} blobfile time 5\nblobfile template {I}\n', 2),
        (f'blob kmhash {H} blobfile time 5\ncertificate {H} mechanism 1\n', 2), (f'blob kmhash {H} time 5\nblobfile devices 1\n', 2),
        (f'blob kmhash {H} blobfile time 5\nblobfile devices 4294967296\n', 2), (f'blob kmhash {H} token {I} needed 0 total 1 seconds 0 time 5\n', 1),
        (f'blob kmhash {H} token {I} needed 2 total 1 seconds 0 time 5\n', 1), (f'blob kmhash {H} token {I} needed 1 total 65 seconds 0 time 5\n', 1),
        (f'blob kmhash {H} token {I} needed 1 total 1 seconds 4294967296 time 5\n', 1), (f'recovery kahash {H} mechanism 0 time 5\n', 1),
        (f'blob kmhash {H} blobfile time 5\nblobfile devices 1', 2), ('use Sign time 1\n\xe9', 2), ('group\n', 1),
    ),
    'requests': (
        ('use Sign time 1\n' * 1001, 1001), (f'blob kmhash {H} blobfile time 5\n', 1), (f'use Sign time 1\ncertificate {H} mechanism 1\n', 2),
        ('use Sign time 1', 1),
    ),
    'bundle': (
        ('', 1), (f'fact KML {H}\n', 2), (f'fact KML {H}\nfact KML {H}\n', 2), (f'fact hkm {H}\nfact KML {H}\n', 2), (f'fact esn {H}\n', 1),
        ('signature warrant fine\n', 1), (f'signature warrant good\nfact KML {H}\n', 2), ('policy suite 256 approach 2 protection 1\n', 1),
        ('policy suite 1 approach 3 protection 1\n', 1), ('policy suite 1 approach 2 protection 5\n', 1), ('policy suite 1 approach 2 protection 0\n', 1),
        ('policy suite 1 approach 2 encryption signing protection 1\n', 1), ('policy suite 1 approach 2 protection 1\n' * 2, 2),
        (f'fact modulekey {H}\n' * 33 + 'policy suite 1 approach 2 protection 1\n', 33), (f'policy suite 1 approach 2 protection 1\nfact KML {H}\n', 2),
    ),
    'hints': (
        ('hint group 0 actions 0 0 0 0 0 0 0\n', 1), ('hint group 256 actions 0 0 0 0 0 0 0 0\n', 1), ('hint group 0 actions 0 0 0 0 0 0 0 256\n', 1),
        ('hint group 0 actions 0 0 0 0 0 0 0 0\n' * 65, 65),
    ),
}


def judged(kind, content):
    """The fault of a file by a call in which everything else is good and nothing is permitted."""
    if kind == 'requests':
        run = Ledger().prepared_run(KM0, b'', (), prepare(b''), content)
        return run.refusal or max((answer.refusal for answer in run.answers if answer.refusal in (1, 2, 3)), default=0)
    if kind == 'bundle':
        number = attest(content, b'').refusal
    elif kind == 'hints':
        number = Ledger().narrow(KM0, b'', use(REDUCE, 0), b'', content).refusal
    else:
        number = Ledger().request(KM0, b'', content).refusal
    return number if number in (1, 2, 3) else 0


class AclTest(unittest.TestCase):
    def test_both_ways(self):
        for acl in (ACL, FAILING_ACL, DAY[1], CRATES / 'list' / 'data' / 'acl'):
            text = Text('acl').write(acl.read_bytes())
            self.assertTrue(text)
            self.assertEqual(Text('acl').read(text.content), Converted(0, acl.read_bytes()))
            beside = acl.with_name('acl.listing')
            if beside.exists():
                self.assertEqual(text.content, beside.read_bytes())

    def test_refusals(self):
        bad = Text('acl').read(b'group\nlimit uses 01\n')
        self.assertFalse(bad)
        self.assertEqual((bad, bool(bad.words)), (Converted(15, line=2), True))
        self.assertEqual(Text('acl').write(b'x'), Converted(1))
        self.assertEqual(Text('acl').write(GROUP * 65), Converted(3))
        self.assertRaises(ValueError, Text, 'certificate')
        self.assertRaises(TypeError, Text('acl').read, 'group\n')


class RecordsTest(unittest.TestCase):
    def test_good_texts(self):
        for kind, texts in GOOD.items():
            for text in texts:
                read = Text(kind).read(text.encode())
                self.assertTrue(read, (kind, text[:200], read))
                self.assertEqual(len(read.content), 64 * text.count('\n'))
                self.assertEqual(fault(kind, read.content), 0)
                self.assertEqual(Text(kind).write(read.content), Converted(0, text.encode()))

    def test_bad_texts(self):
        for kind, rows in BAD.items():
            for text, line in rows:
                self.assertEqual(Text(kind).read(text.encode('latin-1')), Converted(15, line=line), (kind, text[:200]))

    def test_the_files_that_ship(self):
        hints = trim(FAILING_BUNDLE.read_bytes(), FAILING_ACL.read_bytes()).hints
        for kind, content in (('bundle', BUNDLE.read_bytes()), ('requests', DAY[2].read_bytes()), ('hints', hints)):
            text = Text(kind).write(content)
            self.assertEqual(Text(kind).read(text.content), Converted(0, content))

    def test_bad_files(self):
        for kind, content, number in (
                ('request', b'', 2), ('request', b'x', 1), ('request', use(4, 1) * 51, 1), ('request', use(16, 1), 2), ('requests', use(4, 1) * 1001, 1),
                ('requests', use(4, 1) + record(9), 2), ('requests', record(7, at2=b'\0\x40'), 2), ('bundle', b'', 2), ('bundle', b'x', 1),
                ('bundle', BUNDLE.read_bytes()[:-64], 2), ('hints', record(13) * 65, 1), ('hints', record(13, at5=b'\1'), 2), ('hints', record(12), 2)):
            self.assertEqual(Text(kind).write(content), Converted(number), (kind, content[:70]))

    def test_changed_files(self):
        """Of a file with a byte changed, a record moved, lost or repeated: its fault is the number that the gate or the desk
        gives, and without fault its text reads back to it; the text with a bad line put in is refused there."""
        source, tried = random.Random(1), {True: 0, False: 0}
        for kind, texts in GOOD.items():
            for content in [Text(kind).read(text.encode()).content for text in texts] * 20:
                changed = self.changed(source, content[: 64 * 60])
                number = fault(kind, changed)
                self.assertEqual(number, judged(kind, changed), (kind, changed.hex()))
                tried[number == 0] += 1
                if number == 0:
                    text = Text(kind).write(changed).content
                    self.assertEqual(Text(kind).read(text), Converted(0, changed))
                    lines = text.splitlines(keepends=True)
                    place = source.randrange(len(lines) + 1)
                    wrong = b''.join([*lines[:place], b'wrong\n', *lines[place:]])
                    self.assertEqual(Text(kind).read(wrong), Converted(15, line=place + 1))
        self.assertGreater(min(tried.values()), 50)

    @staticmethod
    def changed(source, content):
        records = [bytearray(content[at : at + 64]) for at in range(0, len(content), 64)]
        way = source.randrange(5)
        if records and way == 0:
            source.choice(records)[source.randrange(64)] = source.choice((0, 1, 2, 64, 255))
        elif records and way == 1:
            records.pop(source.randrange(len(records)))
        elif records and way == 2:
            records.insert(source.randrange(len(records) + 1), source.choice(records))
        elif len(records) > 1 and way == 3:
            place = source.randrange(len(records) - 1)
            records[place : place + 2] = records[place + 1], records[place]
        return b''.join(map(bytes, records))

    def test_every_value_of_every_byte(self):
        """Of each kind of record that a file begins with, every byte with many values: the text and the call agree."""
        begin = {'request': ('use Sign time 1\n', f'blob kmhash {H} token {I} needed 2 total 3 seconds 9 time 5\n', f'recovery kahash {H} mechanism 4 time 5\n'),
                 'hints': ('hint group 1 actions 0 1 2 3 4 5 6 7\n',), 'bundle': ('policy suite 3 approach 2 signing protection 2\n',)}
        for kind, texts in begin.items():
            for text in texts:
                content = Text(kind).read(text.encode()).content
                for place in range(64):
                    for value in (0, 1, 2, 3, 4, 5, 8, 15, 16, 63, 64, 65, 128, 255):
                        changed = content[:place] + bytes([value]) + content[place + 1 :]
                        self.assertEqual(fault(kind, changed), judged(kind, changed), (kind, place, value))
