"""Names and words: permissions, facts, signatures, suites, refusal numbers and attestation steps."""
from __future__ import annotations

from typing import NamedTuple, Union

# Each permission at its bit.
PERMISSIONS = (
    'DuplicateHandle', 'GetAppData', 'ReduceACL', 'GetACL', 'Sign', 'Verify', 'SignModuleCert', 'UseAsCertificate',
    'Encrypt', 'Decrypt', 'ExportAsPlain', 'SetAppData', 'ExpandACL', 'UseAsBlobKey', 'UseAsKM', 'UseAsLoaderKey',
)

# Fields 1 to 14 of a bundle, and signatures 1 to 6.
FACTS = (
    'warrantESN', 'stateESN', 'KML', 'HKNSO', 'knsopub', 'hkm', 'hkre', 'kcmsg', 'pubkeydata', 'csr', 'hkra', 'hkmc', 'hkfips',
    'modulekey',
)
SIGNATURES = (
    'warrant', 'modulestate', 'CertKMaKMCbKNSO', 'CertKMaKMCaKFIPSbKNSO', 'CertKREaKRAbKNSO', 'keygeneration',
)

# Certificates 3 to 5, those that have a subject.
CERTIFICATES = {name: number for number, name in enumerate(SIGNATURES, 1) if name.startswith('Cert')}

# Suites 1 to 5.
SUITES = (
    'DLf1024s160mDES3', 'DLf1024s160mRijndael', 'DLf3072s256mRijndael', 'DLf3072s256mAEScSP800131Ar1', 'ECp521mAES',
)

# Protections 1 to 4.
PROTECTIONS = ('module', 'softcard', 'cardset', 'not kept')


class Meaning(NamedTuple):
    """What a refusal number or an attestation step means. A step has neither number nor name of its own but its key."""

    key: str
    name: str
    words: str


# The refusals, each at its number, which is counted from 1.
REFUSALS = (
    ('BAD_LENGTH', 'a length is wrong: not whole records of 64 bytes, a file over its greatest length, a KM0 hash that is not 20 '
                   'bytes, or subject hashes of the wrong length'),
    ('MALFORMED', 'a record is malformed or out of place'),
    ('TOO_MANY', 'one group, limit, action, certificate, delegation or listed module key too many'),
    ('CLOCK_BACK', 'the time is before the load time or the last permitted request'),
    ('NOT_ADMITTED', 'no group admits the request'),
    ('NOT_CERTIFIED', 'no group that admits the request has its certifier presented'),
    ('SPENT', 'every group that admits the request and is certified is used up'),
    ('NOT_NARROWER', 'the hints do not show that the new ACL is a narrowing'),
    ('SHORT_BUFFER', 'a buffer is too short'),
    ('OUT_OF_RANGE', 'the counter is over 255, or the certificate is not 3, 4 or 5'),
    ('UNKNOWN_SUITE', 'the ciphersuite is not 1 to 5'),
    ('OPEN_ARCHIVE', 'a MakeArchiveBlob action without kahash is in a group without a certifier'),
    ('NO_SLOT', 'the slot is over 7'),
    ('OTHER_FORM', 'the prepared form is not the one of this ACL'),
    ('NOT_LISTING', 'a line is not the written form of a record that is valid there'),
)

# The attestation steps in their order; the library numbers them from 1.
STEPS = (
    ('WV1', "the warrant's signature is not good, or its ESN is absent"),
    ('MSCV1', "the module state certificate's signature is not good"),
    ('MSCV2', "the module state certificate's ESN or KML is absent"),
    ('MSCV3', 'the ESNs of the warrant and the module state certificate differ'),
    ('MSCV4', 'the hash of knsopub is not HKNSO, or HKNSO is absent'),
    ('MSCV5', 'hkm is not one of the listed module keys'),
    ('WBCV1', 'CertKMaKMCbKNSO is not good, or knsopub, hkm or hkmc is absent'),
    ('WBCV2', 'CertKMaKMCaKFIPSbKNSO is not good, or knsopub, hkm, hkmc or hkfips is absent'),
    ('WBCV3', 'CertKREaKRAbKNSO is not good, or knsopub, hkre or hkra is absent'),
    ('KGCV1', 'the key generation signature is not good'),
    ('KGCV2', 'the key hash in kcmsg or the hash of pubkeydata is absent, or they differ'),
    ('ACLV3', 'an action has a permission that the policy does not admit'),
    ('WB1', 'a MakeBlob action has neither AllowKmOnly nor kthash'),
    ('WB2', "a MakeBlob action's kmhash is not the trusted module key hkm"),
    ('WB3', 'a MakeBlob action has AllowNullKmToken'),
    ('WB6', 'a MakeBlob action has kthash without ktparams'),
    ('RB1', 'a MakeArchiveBlob action needs the recovery key, and hkre is not trusted'),
    ('RB2', "a MakeArchiveBlob action's kahash is not hkre"),
    ('RB3', "a MakeArchiveBlob action's mechanism is not the one of the ciphersuite"),
    ('KV3', "the key's protection is below the lowest that the policy takes"),
    ('CSRL1', 'a CSR is in use, and its key is absent or is not pubkeydata'),
)

_STEP_WORDS = dict(STEPS)


def meaning(key: Union[int, str]) -> Meaning:
    """The number, name and words of a refusal (its number or its name), or the words of an attestation step.

    Raises ValueError for anything else."""
    if key in _STEP_WORDS:
        return Meaning(str(key), '', _STEP_WORDS[str(key)])
    for number, (name, words) in enumerate(REFUSALS, 1):
        if key in (number, str(number), name):
            return Meaning(str(number), name, words)
    raise ValueError(f'{key}: neither a refusal number, 1 to {len(REFUSALS)}, nor an attestation step')


def explain(key: Union[int, str]) -> str:
    """The words of a refusal number, or of an attestation step.

    >>> explain(7)
    'every group that admits the request and is certified is used up'
    >>> explain('MSCV3')
    'the ESNs of the warrant and the module state certificate differ'
    """
    return meaning(key).words
