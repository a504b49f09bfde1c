"""The desk, the trimming tool, the subject writer, and the words of their answers."""
import re
import unittest

from .support import ACL, BUNDLE, FAILING_ACL, FAILING_BUNDLE, HEADER, KM0, REDUCE, use

from akubolinfe import Ledger, Subject, Trimmed, Verdict, attest, explain, subject, trim
from akubolinfe.words import REFUSALS, STEPS, SUITES, meaning


class DeskTest(unittest.TestCase):
    def test_an_acceptance(self):
        verdict = attest(BUNDLE.read_bytes(), ACL.read_bytes())
        self.assertTrue(verdict)
        self.assertEqual(verdict, Verdict(0, None, 2, 2, True))
        self.assertEqual((str(verdict), verdict.words), ('accept 2 protection 2 recoverable yes', ''))

    def test_approach_1(self):
        bundle = bytearray(BUNDLE.read_bytes())
        bundle[-59] = 1
        verdict = attest(bundle, FAILING_ACL.read_bytes())
        self.assertTrue(verdict)
        self.assertEqual((str(verdict), verdict.protection), ('accept 1', 0))

    def test_a_failing_step(self):
        verdict = attest(FAILING_BUNDLE.read_bytes(), FAILING_ACL.read_bytes())
        self.assertFalse(verdict)
        self.assertEqual((verdict.step, str(verdict), verdict.words), ('ACLV3', 'fail ACLV3', explain('ACLV3')))

    def test_a_refusal(self):
        verdict = attest(b'x', b'')
        self.assertFalse(verdict)
        self.assertEqual((verdict, str(verdict), verdict.words), (Verdict(1), 'refuse 1', explain(1)))
        self.assertRaises(TypeError, attest, 'x', b'')

    def test_trimming_and_the_narrowing_by_it(self):
        bundle, acl = FAILING_BUNDLE.read_bytes(), FAILING_ACL.read_bytes()
        trimmed = trim(bundle, acl)
        self.assertTrue(trimmed)
        self.assertEqual((len(trimmed.acl), len(trimmed.hints)), (512, 128))
        self.assertTrue(attest(bundle, trimmed.acl))
        self.assertTrue(Ledger().narrow(KM0, acl, use(REDUCE, 1), trimmed.acl, trimmed.hints))
        self.assertEqual(trim(bundle, trimmed.acl).acl, trimmed.acl)

    def test_what_cannot_be_trimmed(self):
        bundle = bytearray(FAILING_BUNDLE.read_bytes())
        self.assertEqual(trim(b'x', b''), Trimmed(1))
        bundle[14 * 64 + 5] = 0
        trimmed = trim(bundle, FAILING_ACL.read_bytes())
        self.assertFalse(trimmed)
        self.assertEqual((trimmed, trimmed.words), (Trimmed(0, 'WV1'), explain('WV1')))


class SubjectTest(unittest.TestCase):
    def test_lengths(self):
        lengths = [[len(subject(certificate, suite, bytes(20 * n)).content) for suite in range(1, 6)] for certificate, n in ((3, 3), (4, 4), (5, 3))]
        self.assertEqual(lengths, [[72, 90, 102, 109, 92], [100, 118, 130, 137, 120], [74] * 5])

    def test_content(self):
        hashes = bytes(range(60))
        self.assertEqual(bytes(subject(3, 3, hashes)), b'Module keys: suite = DLf3072s256mRijndael\0' + hashes)
        self.assertEqual(bytes(subject(5, 5, hashes)), b'Card Recovery\0' + hashes)
        self.assertEqual(SUITES[2], 'DLf3072s256mRijndael')

    def test_refusals(self):
        for made, number in ((subject(6, 1, bytes(60)), 10), (subject(3, 6, bytes(60)), 11), (subject(4, 1, bytes(60)), 1)):
            self.assertFalse(made)
            self.assertEqual(made, Subject(number))
            self.assertEqual(made.words, explain(number))
        self.assertRaises(ValueError, subject, -1, 1, b'')


class WordsTest(unittest.TestCase):
    def test_every_number_and_step(self):
        self.assertEqual(explain(7), explain('7'))
        self.assertEqual(explain('SPENT'), explain(7))
        self.assertEqual([meaning(number).key for number in range(1, 16)], [str(number) for number in range(1, 16)])
        self.assertEqual(len(STEPS), 21)
        for key in (0, 16, 'ACLV4', '', None):
            self.assertRaises(ValueError, explain, key)

    def test_the_header_has_the_same_words(self):
        text = HEADER.read_text()
        if 'AKUBOLINFE_ABI' not in text:
            self.skipTest('the header is that of an earlier ABI')
        rows = re.findall(r'#define AKUBOLINFE_(?!TEXT_|PART_|INPUT_|REASON_|SIGNATURE_|FIELD_)(\w+) (\d+) +/\* (.*?) \*/', text, re.S)
        found = {name: (int(number), ' '.join(words.split())) for name, number, words in rows}
        expected = {name: (number, words) for number, (name, words) in enumerate(REFUSALS, 1)}
        expected.update({name: (number, words) for number, (name, words) in enumerate(STEPS, 1)})
        self.assertEqual(found, expected)
