"""Builders give the files that the papers lay out, and refuse what has no line."""
import unittest

from .support import ACL, BUNDLE, KM0, SIGN, acl_of, record, use

from akubolinfe import Certificate, Delegation, Facts, Hints, Ledger, Policy, Request, Token, attest, fault, read_bundle

H, I = 'c1' * 20, '22' * 20


class BuildersTest(unittest.TestCase):
    def test_a_use_with_what_is_presented(self):
        request = Request.use('Sign', 10, [Certificate(H, 1)], [Delegation(H, bytes.fromhex(I), ('Verify', 'Sign'))])
        expected = use(SIGN, 10) + record(9, at4=bytes.fromhex(H) + b'\0\1') + record(14, at4=bytes.fromhex(H + I) + b'\0\x30')
        self.assertEqual(bytes(request), expected)
        self.assertEqual(request.text.count('\n'), 3)
        acl = acl_of(f'group certifier {H}\nOpPermissions Sign\n')
        self.assertTrue(Ledger().request(KM0, acl, bytes(request)))

    def test_blobs(self):
        token = Token(I, 2, 3, 9, soft=True)
        stored = bytes(Request.blob(H, 5, token, device=31, template=I))
        self.assertEqual(stored[:64], record(7, at2=b'\0\x41', at4=bytes.fromhex(H + I) + b'\0\1\2\3\0\0\0\x09', at56=(5).to_bytes(8, 'big')))
        self.assertEqual(stored[64:], record(15, at2=b'\0\3', at4=b'\x80\0\0\0' + bytes.fromhex(I)))
        self.assertEqual(bytes(Request.blob(H, 5)), record(7, at4=bytes.fromhex(H), at56=(5).to_bytes(8, 'big')))
        self.assertEqual(bytes(Request.recovery(H, 2, 5)), record(8, at4=bytes.fromhex(H) + b'\0\2', at56=(5).to_bytes(8, 'big')))
        self.assertEqual(fault('request', bytes(Request.recovery(H, 2, 5, device=0))), 0)

    def test_a_bundle(self):
        facts, policy = read_bundle(BUNDLE.read_bytes())
        self.assertEqual(policy, Policy(3, 2, 2, signing=True, csr=True))
        self.assertEqual((len(facts.facts), len(facts.module_keys), set(facts.signatures.values())), (13, 1, {True}))
        self.assertEqual(facts.bundle(policy), BUNDLE.read_bytes())
        again = Facts(dict(reversed(list(facts.facts.items()))), facts.module_keys, facts.signatures)
        self.assertEqual(again.bundle(Policy('DLf3072s256mRijndael', 'softcard', signing=True, csr=True)), BUNDLE.read_bytes())
        bad = Facts(facts.facts, facts.module_keys, {**facts.signatures, 'warrant': False})
        self.assertEqual(str(attest(bad.bundle(policy), ACL.read_bytes())), 'fail WV1')
        self.assertEqual(bytes(policy), BUNDLE.read_bytes()[-64:])

    def test_hints(self):
        hints = Hints([(0, [0, 2, 3]), (1, [])])
        self.assertEqual(bytes(hints), record(13, at8=b'\0\2\3') + record(13, at4=b'\1'))
        self.assertEqual(Hints.read(bytes(hints)).groups, [(0, (0, 2, 3, 0, 0, 0, 0, 0)), (1, (0,) * 8)])
        self.assertEqual(bytes(Hints([])), b'')

    def test_what_has_no_line(self):
        esn = {'warrantESN': H}
        for call in (lambda: Request.use('sign', 1), lambda: Request.use('Sign', -1), lambda: bytes(Request.use('Sign', 1, [Certificate(H, 0)])),
                     lambda: Request.use('Sign', 1, [Certificate('xy', 1)]), lambda: bytes(Request.use('Sign', 1, [Certificate(H, 1)] * 33)),
                     lambda: Request.use('Sign', 1, (), [Delegation(H, I, ['Read'])]), lambda: bytes(Request.blob(H, 1, Token(I, 3, 2))),
                     lambda: Request.blob(H, 1, template=I), lambda: Request.blob(H, 1, device=32), lambda: bytes(Request.recovery(H, 0, 1)),
                     lambda: Facts({'esn': H}), lambda: Facts({'modulekey': H}), lambda: Facts({}, (), {'root': True}),
                     lambda: Facts(esn).bundle(Policy(1, 5)), lambda: Facts(esn).bundle(Policy(1, 'none')), lambda: Facts(esn).bundle(Policy(1, 1, 3)),
                     lambda: Facts(esn, [H] * 33).bundle(Policy(1, 1)), lambda: Policy('AES', 1).line, lambda: Hints([(0, [0] * 9)]),
                     lambda: bytes(Hints([(256, [])])), lambda: read_bundle(b'x')):
            self.assertRaises(ValueError, call)
        for call in (lambda: Request.use('Sign', 'now'), lambda: Request.use('Sign', 1, [Certificate(5, 1)])):
            self.assertRaises(TypeError, call)
