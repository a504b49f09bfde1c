/* Akubolinfe for C and C++: a permission gate for keys kept in nShield modules (for one key, and for a cabinet of eight), the
 * attestation desk, the trimming tool, the subject writer, files as text, and where a fault is. x86-64-v2 Linux.
 *
 * Answers
 *   Every answer begins with `refusal`: 0 if the call did what it was asked, else the number of the refusal (AKUBOLINFE_MALFORMED and
 *   the others below). `if (answer.refusal)` is the test for all of them; a verdict and a trimming also have `step`, the number of the
 *   attestation step that failed. What an answer does not carry is zero; a group that is not named is AKUBOLINFE_NO_GROUP.
 *   Every function takes any bytes, of any length, and any numbers, and returns. A refused call changes nothing: no ledger, no cabinet
 *   and no buffer.
 *
 * In place and by value
 *   The functions whose names end in `_in_place` change the ledger or the cabinet that the pointer leads to. Use these. Those without
 *   `_in_place` take a ledger or a cabinet by value and return the changed one in the outcome: the caller has to pass that one to the
 *   next call. A caller who passes the old one again forgets what was used.
 *
 * The caller
 *   - lends bytes as a pointer and a length. The pointer leads to that many bytes, and nothing else changes them before the call
 *     returns. If the length is zero nothing is read or written, and the pointer may be NULL.
 *   - lends what is written (a ledger, a cabinet, a buffer) so that it overlaps nothing else that is lent to the same call. What is
 *     only read (`const`) may overlap.
 *   - aligns a ledger, a cabinet and an array of certificates as C aligns their types, and never passes NULL for a ledger or a cabinet.
 *     Bytes need no alignment. The length of an array of certificates counts certificates, not bytes.
 *   - makes the calls on one ledger or one cabinet one after the other. Calls on different ones may run at the same time in any number
 *     of threads: the library keeps nothing between calls, and it has no global state.
 *   - passes the ACL that is in force, the KM0 hash of the module, and the true time in seconds. No function reads a clock, and none
 *     knows whether a presented certificate, or a signature that is reported as good, was checked.
 *
 * Sizes
 *   A ledger has 1,296 bytes and a cabinet 3,200. The stack that a call in place needs, measured on the longest files (with the older
 *   kit): 6 KB on a ledger, 15 KB for a run on it, 12 KB in a slot of a cabinet, 34 KB for a run in a slot. By value it is at most 10 KB
 *   more. The other functions need less than 5 KB.
 *
 * Link with `pkg-config --cflags --libs akubolinfe`. */
#ifndef AKUBOLINFE_H
#define AKUBOLINFE_H

#include <stdbool.h>
#include <stddef.h>
#include <stdint.h>

#ifdef __cplusplus
extern "C" {
#endif

/* The answer of the function is not to be dropped: the compiler warns. */
#if defined(__GNUC__)
#define AKUBOLINFE_MUST_USE __attribute__((warn_unused_result))
#else
#define AKUBOLINFE_MUST_USE
#endif

/* The version of the library. AKUBOLINFE_ABI grows whenever a program that was compiled with an older header has to be compiled
 * again; it is the number in the name of the shared library, libakubolinfe.so.1. */
#define AKUBOLINFE_VERSION "1.1"
#define AKUBOLINFE_ABI 1

/* The AKUBOLINFE_ABI of the library that is linked. A program that loads the library at run time compares it with its own. */
AKUBOLINFE_MUST_USE uint32_t akubolinfe_abi(void);

/* Sizes of records, hashes and tables. */
#define AKUBOLINFE_RECORD 64
#define AKUBOLINFE_HASH 20
#define AKUBOLINFE_GROUPS 64
#define AKUBOLINFE_COUNTERS 256
#define AKUBOLINFE_SLOTS 8

/* Greatest lengths in bytes. Longer ACLs, requests, hints and bundles are refused with 1. No subject, no listing, no text, no trimmed
 * ACL and no hints are longer than this, so a buffer of this length is never refused with 9. The text of an ACL is its listing. */
#define AKUBOLINFE_ACL_BYTES 86016
#define AKUBOLINFE_REQUEST_BYTES 3200
#define AKUBOLINFE_HINT_BYTES 4096
#define AKUBOLINFE_BUNDLE_BYTES 3328
#define AKUBOLINFE_SUBJECT_BYTES 137
#define AKUBOLINFE_LISTING_BYTES 164416
#define AKUBOLINFE_REQUEST_TEXT_BYTES 6890
#define AKUBOLINFE_REQUESTS_TEXT_BYTES 179000
#define AKUBOLINFE_BUNDLE_TEXT_BYTES 2718
#define AKUBOLINFE_HINTS_TEXT_BYTES 3520

/* The kinds of file that have a text. */
#define AKUBOLINFE_TEXT_ACL 0      /* an ACL; its text is its listing */
#define AKUBOLINFE_TEXT_REQUEST 1  /* a request with its record of kind 15, its certificates and its delegations */
#define AKUBOLINFE_TEXT_REQUESTS 2 /* up to 1,000 requests, each of one record, as in a run */
#define AKUBOLINFE_TEXT_BUNDLE 3   /* a bundle */
#define AKUBOLINFE_TEXT_HINTS 4    /* the hints of a narrowing */

/* Greatest numbers of a run: its certificates, and its request records, without and with a prepared form. */
#define AKUBOLINFE_CERTIFICATES 32
#define AKUBOLINFE_RUN_RECORDS 100
#define AKUBOLINFE_PREPARED_RECORDS 1000

/* The bytes of one answer in the buffer of a run. */
#define AKUBOLINFE_ANSWER_BYTES 8

/* Refusals. */
#define AKUBOLINFE_BAD_LENGTH 1     /* a length is wrong: not whole records of 64 bytes, a file over its greatest length, a KM0 hash
                                       that is not 20 bytes, or subject hashes of the wrong length */
#define AKUBOLINFE_MALFORMED 2      /* a record is malformed or out of place */
#define AKUBOLINFE_TOO_MANY 3       /* one group, limit, action, certificate, delegation or listed module key too many */
#define AKUBOLINFE_CLOCK_BACK 4     /* the time is before the load time or the last permitted request */
#define AKUBOLINFE_NOT_ADMITTED 5   /* no group admits the request */
#define AKUBOLINFE_NOT_CERTIFIED 6  /* no group that admits the request has its certifier presented */
#define AKUBOLINFE_SPENT 7          /* every group that admits the request and is certified is used up */
#define AKUBOLINFE_NOT_NARROWER 8   /* the hints do not show that the new ACL is a narrowing */
#define AKUBOLINFE_SHORT_BUFFER 9   /* a buffer is too short */
#define AKUBOLINFE_OUT_OF_RANGE 10  /* the counter is over 255, or the certificate is not 3, 4 or 5 */
#define AKUBOLINFE_UNKNOWN_SUITE 11 /* the ciphersuite is not 1 to 5 */
#define AKUBOLINFE_OPEN_ARCHIVE 12  /* a MakeArchiveBlob action without kahash is in a group without a certifier */
#define AKUBOLINFE_NO_SLOT 13       /* the slot is over 7 */
#define AKUBOLINFE_OTHER_FORM 14    /* the prepared form is not the one of this ACL */
#define AKUBOLINFE_NOT_LISTING 15   /* a line is not the written form of a record that is valid there */

/* Attestation steps. */
#define AKUBOLINFE_WV1 1     /* the warrant's signature is not good, or its ESN is absent */
#define AKUBOLINFE_MSCV1 2   /* the module state certificate's signature is not good */
#define AKUBOLINFE_MSCV2 3   /* the module state certificate's ESN or KML is absent */
#define AKUBOLINFE_MSCV3 4   /* the ESNs of the warrant and the module state certificate differ */
#define AKUBOLINFE_MSCV4 5   /* the hash of knsopub is not HKNSO, or HKNSO is absent */
#define AKUBOLINFE_MSCV5 6   /* hkm is not one of the listed module keys */
#define AKUBOLINFE_WBCV1 7   /* CertKMaKMCbKNSO is not good, or knsopub, hkm or hkmc is absent */
#define AKUBOLINFE_WBCV2 8   /* CertKMaKMCaKFIPSbKNSO is not good, or knsopub, hkm, hkmc or hkfips is absent */
#define AKUBOLINFE_WBCV3 9   /* CertKREaKRAbKNSO is not good, or knsopub, hkre or hkra is absent */
#define AKUBOLINFE_KGCV1 10  /* the key generation signature is not good */
#define AKUBOLINFE_KGCV2 11  /* the key hash in kcmsg or the hash of pubkeydata is absent, or they differ */
#define AKUBOLINFE_ACLV3 12  /* an action has a permission that the policy does not admit */
#define AKUBOLINFE_WB1 13    /* a MakeBlob action has neither AllowKmOnly nor kthash */
#define AKUBOLINFE_WB2 14    /* a MakeBlob action's kmhash is not the trusted module key hkm */
#define AKUBOLINFE_WB3 15    /* a MakeBlob action has AllowNullKmToken */
#define AKUBOLINFE_WB6 16    /* a MakeBlob action has kthash without ktparams */
#define AKUBOLINFE_RB1 17    /* a MakeArchiveBlob action needs the recovery key, and hkre is not trusted */
#define AKUBOLINFE_RB2 18    /* a MakeArchiveBlob action's kahash is not hkre */
#define AKUBOLINFE_RB3 19    /* a MakeArchiveBlob action's mechanism is not the one of the ciphersuite */
#define AKUBOLINFE_KV3 20    /* the key's protection is below the lowest that the policy takes */
#define AKUBOLINFE_CSRL1 21  /* a CSR is in use, and its key is absent or is not pubkeydata */

/* No group is named. */
#define AKUBOLINFE_NO_GROUP UINT32_MAX

/* Nothing is named: a record, a group, an action, an item or a permission, in the answers of akubolinfe_locate_... */
#define AKUBOLINFE_UNNAMED UINT32_MAX

/* What fails a step of the bundle. */
#define AKUBOLINFE_SIGNATURE_ABSENT 1 /* a signature is absent */
#define AKUBOLINFE_SIGNATURE_BAD 2    /* a signature is not good */
#define AKUBOLINFE_FIELD_ABSENT 3     /* a field is absent */
#define AKUBOLINFE_FIELD_DIFFERS 4    /* a field is not equal to what it must equal; hkm is not listed */

/* What was used of one key: a count for each group, the named counters, the load time and the last time, in seconds. Keep it from one
 * call to the next, and store it if it has to outlive the program. A ledger that was kept with 16 counts and 96 counters (464 bytes) is
 * carried over into a fresh one: its counts and its counters, each to the front of theirs, and both times. */
typedef struct {
    uint32_t counts[AKUBOLINFE_GROUPS];
    uint32_t counters[AKUBOLINFE_COUNTERS];
    uint64_t loaded;
    uint64_t last;
} akubolinfe_ledger;

/* What a cabinet has of one key: what a ledger has besides its counters. */
typedef struct {
    uint32_t counts[AKUBOLINFE_GROUPS];
    uint64_t loaded;
    uint64_t last;
} akubolinfe_slot;

/* Eight keys, each with a slot, and the named counters, which all of them share. */
typedef struct {
    akubolinfe_slot slots[AKUBOLINFE_SLOTS];
    uint32_t counters[AKUBOLINFE_COUNTERS];
} akubolinfe_cabinet;

/* The answer of the gate. A permit has refusal 0 and the group that permits; a load or a clear that is done has refusal 0 and no group.
 * Refusals 6 and 7 name the group that came nearest: the lowest that admits the request (6), the lowest that admits it and is
 * certified (7). */
typedef struct {
    uint32_t refusal;
    uint32_t group;
} akubolinfe_reply;

/* The same with the ledger, or the cabinet, after the call. */
typedef struct {
    uint32_t refusal;
    uint32_t group;
    akubolinfe_ledger ledger;
} akubolinfe_outcome;

typedef struct {
    uint32_t refusal;
    uint32_t group;
    akubolinfe_cabinet cabinet;
} akubolinfe_cabinet_outcome;

/* A decoded certificate: the hash of its key, and its mechanism, which is not zero. */
typedef struct {
    uint8_t hash[AKUBOLINFE_HASH];
    uint16_t mechanism;
} akubolinfe_certificate;

/* The prepared form of an ACL: sets of its groups, bit g for group g. `uses` has, for each permission, the groups with an action that sets
 * its bit; `working` and `recovery` have the groups with a MakeBlob action and with a MakeArchiveBlob action. */
typedef struct {
    uint64_t uses[16];
    uint64_t working;
    uint64_t recovery;
} akubolinfe_form;

/* The form of an ACL, or the refusal of the ACL and a form that is all zero. */
typedef struct {
    uint32_t refusal;
    akubolinfe_form form;
} akubolinfe_preparation;

/* The answer of a run: the number of its requests, each of which has its own answer in the buffer; or the refusal of the run as a whole. */
typedef struct {
    uint32_t refusal;
    uint64_t count;
} akubolinfe_run_reply;

/* The same with the ledger, or the cabinet, after the run. */
typedef struct {
    uint32_t refusal;
    uint64_t count;
    akubolinfe_ledger ledger;
} akubolinfe_run_outcome;

typedef struct {
    uint32_t refusal;
    uint64_t count;
    akubolinfe_cabinet cabinet;
} akubolinfe_cabinet_run_outcome;

/* The desk's verdict: accepted if `refusal` and `step` are both zero (see akubolinfe_accepted). An acceptance names the approach, 1 or 2,
 * and, for approach 2, the protection (1 module, 2 softcard, 3 card set, 4 not kept in any working blob) and whether the key can
 * be recovered. `step` is the first attestation step that failed. */
typedef struct {
    uint32_t refusal;
    uint32_t step;
    uint32_t approach;
    uint32_t protection;
    bool recoverable;
} akubolinfe_verdict;

/* Where a verdict that is no acceptance comes from. `refusal` and `step` are the verdict's; on acceptance nothing is named. A refusal names
 * the input (AKUBOLINFE_INPUT_BUNDLE or AKUBOLINFE_INPUT_ACL) and in it the part (AKUBOLINFE_PART_..): for a record its index, for the end the
 * number of records; 11 names the policy. A step of the bundle names what is wrong (AKUBOLINFE_SIGNATURE_ABSENT to
 * AKUBOLINFE_FIELD_DIFFERS) and the number of the signature or field. A step of the ACL, and KV3, names the first action that fails it: its
 * group, its index among the group's actions (a record of kind 15 does not count) and, for ACLV3, the lowest permission that is not
 * admitted. All indices are from 0. What is not named is 0 (input, part, what, number) or AKUBOLINFE_UNNAMED (record, group, action,
 * permission). */
typedef struct {
    uint32_t refusal;
    uint32_t step;
    uint32_t input;
    uint32_t part;
    uint32_t record;
    uint32_t what;
    uint32_t number;
    uint32_t group;
    uint32_t action;
    uint32_t permission;
} akubolinfe_verdict_place;

/* The answer of the subject writer: the length of the subject. */
typedef struct {
    uint32_t refusal;
    uint64_t length;
} akubolinfe_subject_reply;

/* The answer of the functions for listings and texts: the length of the result; for refusal 15 the number of the first bad line, from 1. */
typedef struct {
    uint32_t refusal;
    uint64_t line;
    uint64_t length;
} akubolinfe_text_reply;

/* The answer of the trimming tool: trimmed if `refusal` and `step` are both zero, with the lengths of the new ACL and of its hints.
 * `step` is the first attestation step that failed before the ACL was looked at. */
typedef struct {
    uint32_t refusal;
    uint32_t step;
    uint64_t acl_length;
    uint64_t hints_length;
} akubolinfe_trim_reply;

/* Where the first fault of a file is. `refusal` is the one that the gate, the desk or a run gives for the file, 0 if it has no fault.
 * `record` is the index of the record, from 0, or the number of records if the end is at fault. */
#define AKUBOLINFE_PART_LENGTH 1 /* the length */
#define AKUBOLINFE_PART_RECORD 2 /* a record */
#define AKUBOLINFE_PART_END 3    /* the end: a record is missing */
typedef struct {
    uint32_t refusal;
    uint32_t part;
    uint32_t record;
} akubolinfe_file_place;

/* Where the first fault of a call is. `refusal` is the one of the call, 0 if it would be permitted. Refusals 1, 2, 3 and 12 name the
 * input, with its part and record as in akubolinfe_file_place. 6 and 7 name the group as the call does, 7 also what is spent. 8 names
 * the first new group that is not shown to be narrower, or the number of new groups if a hint is left over, and the reason. `item` is
 * the index of a limit or an action, from 0. What is not named is 0, or AKUBOLINFE_UNNAMED for record, group and item. */
#define AKUBOLINFE_INPUT_KM0 1     /* KM0 */
#define AKUBOLINFE_INPUT_ACL 2     /* the ACL */
#define AKUBOLINFE_INPUT_REQUEST 3 /* the request; record 0 if a replacement is asked for by another request */
#define AKUBOLINFE_INPUT_NEW_ACL 4 /* the new ACL */
#define AKUBOLINFE_INPUT_HINTS 5   /* the hints */
#define AKUBOLINFE_INPUT_BUNDLE 6  /* the bundle */
#define AKUBOLINFE_REASON_HINT 1      /* 8: the group's hint is missing or left over, its source does not rise, or it names nothing */
#define AKUBOLINFE_REASON_CERTIFIER 2 /* 8: the source's certifier or mechanism is not kept */
#define AKUBOLINFE_REASON_LIMIT 3     /* 8: `item`, a limit of the source, is not answered */
#define AKUBOLINFE_REASON_ACTION 4    /* 8: `item`, an action of the new group, is of another kind or wider */
#define AKUBOLINFE_REASON_SPENT 5     /* 7: `item`, a limit of the group, is spent */
#define AKUBOLINFE_REASON_FULL 6      /* 7: the group's own count is full */
typedef struct {
    uint32_t refusal;
    uint32_t input;
    uint32_t part;
    uint32_t record;
    uint32_t group;
    uint32_t reason;
    uint32_t item;
} akubolinfe_call_place;

/* A ledger from which nothing was used, all zero. Load it before the first request. */
AKUBOLINFE_MUST_USE akubolinfe_ledger akubolinfe_fresh(void);

/* Loads the key: the counts of the groups become zero, load time and last time become `time`, which may be any. The named counters
 * stay. Never refused. */
akubolinfe_reply akubolinfe_load_in_place(akubolinfe_ledger *ledger, uint64_t time);

/* Sets one named counter, 0 to 255, to zero. Refused with 10 if there is no such counter. */
AKUBOLINFE_MUST_USE akubolinfe_reply akubolinfe_clear_in_place(akubolinfe_ledger *ledger, size_t counter);

/* Asks for a use of the key or for a blob. `km0` is the hash of the module key KM0, 20 bytes; `acl` is the ACL in force. `request` is
 * the request record; then, if the request is for a blob that is stored (flag 6), a record of kind 15 with the one device and, if one
 * is used, the hash of the ACL template; then up to 32 certificates (kind 9), then up to 16 delegations (kind 14). A permit charges
 * the group that permits and the counters that it names, and sets the last time.
 * Refused with 1; 2, 3, 12 (the first fault in the ACL, then in the request); 4, 5, 6, 7. */
AKUBOLINFE_MUST_USE akubolinfe_reply akubolinfe_request_in_place(akubolinfe_ledger *ledger, const uint8_t *km0, size_t km0_length,
                                                                 const uint8_t *acl, size_t acl_length, const uint8_t *request,
                                                                 size_t request_length);

/* Asks to replace the ACL by a narrower one. `hints` has a record for each group of the new ACL that names the old group and the old
 * actions that it comes from. If it is permitted the new ACL is in force, and each new group has the count of its old group.
 * Refused as akubolinfe_request_in_place, with faults in the new ACL and in the hints after those in the request; then with 8. */
AKUBOLINFE_MUST_USE akubolinfe_reply akubolinfe_narrow_in_place(akubolinfe_ledger *ledger, const uint8_t *km0, size_t km0_length,
                                                                const uint8_t *acl, size_t acl_length, const uint8_t *request,
                                                                size_t request_length, const uint8_t *new_acl,
                                                                size_t new_acl_length, const uint8_t *hints,
                                                                size_t hints_length);

/* Asks to replace the ACL by any other. If it is permitted the new ACL is in force, and the counts of the groups are zero.
 * Refused as akubolinfe_request_in_place, with faults in the new ACL after those in the request. */
AKUBOLINFE_MUST_USE akubolinfe_reply akubolinfe_expand_in_place(akubolinfe_ledger *ledger, const uint8_t *km0, size_t km0_length,
                                                                const uint8_t *acl, size_t acl_length, const uint8_t *request,
                                                                size_t request_length, const uint8_t *new_acl,
                                                                size_t new_acl_length);

/* The same three calls on the tables of a ledger: its counts, its counters and its last time are charged where they are, and nothing is
 * copied. akubolinfe_request_in_place(&l, ..) copies the ledger twice, which costs more than the decision where the ACL is short; reply and
 * ledger are the same. For a ledger `l` pass l.counts, l.counters, l.loaded, &l.last. The three pointers lead to different places, aligned as
 * C aligns their numbers, and are never NULL. */
AKUBOLINFE_MUST_USE akubolinfe_reply akubolinfe_request_on_tables(
    uint32_t counts[AKUBOLINFE_GROUPS], uint32_t counters[AKUBOLINFE_COUNTERS], uint64_t loaded, uint64_t *last, const uint8_t *km0,
    size_t km0_length, const uint8_t *acl, size_t acl_length, const uint8_t *request, size_t request_length);

/* A narrowing on tables. */
AKUBOLINFE_MUST_USE akubolinfe_reply akubolinfe_narrow_on_tables(
    uint32_t counts[AKUBOLINFE_GROUPS], uint32_t counters[AKUBOLINFE_COUNTERS], uint64_t loaded, uint64_t *last, const uint8_t *km0,
    size_t km0_length, const uint8_t *acl, size_t acl_length, const uint8_t *request, size_t request_length, const uint8_t *new_acl,
    size_t new_acl_length, const uint8_t *hints, size_t hints_length);

/* An expansion on tables. */
AKUBOLINFE_MUST_USE akubolinfe_reply akubolinfe_expand_on_tables(
    uint32_t counts[AKUBOLINFE_GROUPS], uint32_t counters[AKUBOLINFE_COUNTERS], uint64_t loaded, uint64_t *last, const uint8_t *km0,
    size_t km0_length, const uint8_t *acl, size_t acl_length, const uint8_t *request, size_t request_length, const uint8_t *new_acl,
    size_t new_acl_length);

/* Asks up to 100 requests, each of one record, in order, all with the certificates of `row`, at most 32. Answer k is at
 * answers[8 * k]: the refusal, 0 for a permit, in four bytes, then the group in four, both with the greatest byte first, 0xffffffff if
 * no group is named. The answers, and the ledger, are those of akubolinfe_request_in_place for each request in turn; a request that is
 * refused changes nothing, and the run continues. Bytes after the last answer are unchanged.
 * The run as a whole is refused with 1, 3 (too many certificates), 2 (a mechanism that is zero), a fault in the ACL, 9 (fewer than 8
 * bytes for each request). */
AKUBOLINFE_MUST_USE akubolinfe_run_reply akubolinfe_run_in_place(akubolinfe_ledger *ledger, const uint8_t *km0, size_t km0_length,
                                                                 const uint8_t *acl, size_t acl_length,
                                                                 const akubolinfe_certificate *row, size_t row_length,
                                                                 const uint8_t *requests, size_t requests_length,
                                                                 uint8_t *answers, size_t answers_length);

/* The same for up to 1,000 requests, with the form that akubolinfe_prepare made of this ACL. After the other refusals of the run, a form
 * that is not the one of this ACL is refused with 14. */
AKUBOLINFE_MUST_USE akubolinfe_run_reply akubolinfe_prepared_run_in_place(
    akubolinfe_ledger *ledger, const uint8_t *km0, size_t km0_length, const uint8_t *acl, size_t acl_length,
    const akubolinfe_certificate *row, size_t row_length, akubolinfe_form form, const uint8_t *requests, size_t requests_length,
    uint8_t *answers, size_t answers_length);

/* A cabinet from which nothing was used, all zero. Load each slot before its first request. */
AKUBOLINFE_MUST_USE akubolinfe_cabinet akubolinfe_cabinet_fresh(void);

/* The calls on a slot of a cabinet are those on a ledger, with the slot's counts and times and the counters that all slots share. Each
 * call passes the ACL of the slot's key. No other slot changes. A slot over 7 is refused with 13 before anything else is checked. */
AKUBOLINFE_MUST_USE akubolinfe_reply akubolinfe_cabinet_load_in_place(akubolinfe_cabinet *cabinet, size_t slot, uint64_t time);

/* Sets one named counter, 0 to 255, to zero, for every slot. */
AKUBOLINFE_MUST_USE akubolinfe_reply akubolinfe_cabinet_clear_in_place(akubolinfe_cabinet *cabinet, size_t counter);

AKUBOLINFE_MUST_USE akubolinfe_reply akubolinfe_cabinet_request_in_place(akubolinfe_cabinet *cabinet, size_t slot,
                                                                         const uint8_t *km0, size_t km0_length,
                                                                         const uint8_t *acl, size_t acl_length,
                                                                         const uint8_t *request, size_t request_length);

AKUBOLINFE_MUST_USE akubolinfe_reply akubolinfe_cabinet_narrow_in_place(
    akubolinfe_cabinet *cabinet, size_t slot, const uint8_t *km0, size_t km0_length, const uint8_t *acl, size_t acl_length,
    const uint8_t *request, size_t request_length, const uint8_t *new_acl, size_t new_acl_length, const uint8_t *hints,
    size_t hints_length);

AKUBOLINFE_MUST_USE akubolinfe_reply akubolinfe_cabinet_expand_in_place(akubolinfe_cabinet *cabinet, size_t slot,
                                                                        const uint8_t *km0, size_t km0_length,
                                                                        const uint8_t *acl, size_t acl_length,
                                                                        const uint8_t *request, size_t request_length,
                                                                        const uint8_t *new_acl, size_t new_acl_length);

AKUBOLINFE_MUST_USE akubolinfe_run_reply akubolinfe_cabinet_run_in_place(akubolinfe_cabinet *cabinet, size_t slot,
                                                                         const uint8_t *km0, size_t km0_length,
                                                                         const uint8_t *acl, size_t acl_length,
                                                                         const akubolinfe_certificate *row, size_t row_length,
                                                                         const uint8_t *requests, size_t requests_length,
                                                                         uint8_t *answers, size_t answers_length);

AKUBOLINFE_MUST_USE akubolinfe_run_reply akubolinfe_cabinet_prepared_run_in_place(
    akubolinfe_cabinet *cabinet, size_t slot, const uint8_t *km0, size_t km0_length, const uint8_t *acl, size_t acl_length,
    const akubolinfe_certificate *row, size_t row_length, akubolinfe_form form, const uint8_t *requests, size_t requests_length,
    uint8_t *answers, size_t answers_length);

/* The same calls by value: each returns the changed ledger or cabinet in the outcome, and the unchanged one with a refusal. */
AKUBOLINFE_MUST_USE akubolinfe_outcome akubolinfe_load(akubolinfe_ledger ledger, uint64_t time);

AKUBOLINFE_MUST_USE akubolinfe_outcome akubolinfe_clear(akubolinfe_ledger ledger, size_t counter);

AKUBOLINFE_MUST_USE akubolinfe_outcome akubolinfe_request(akubolinfe_ledger ledger, const uint8_t *km0, size_t km0_length,
                                                          const uint8_t *acl, size_t acl_length, const uint8_t *request,
                                                          size_t request_length);

AKUBOLINFE_MUST_USE akubolinfe_outcome akubolinfe_narrow(akubolinfe_ledger ledger, const uint8_t *km0, size_t km0_length,
                                                         const uint8_t *acl, size_t acl_length, const uint8_t *request,
                                                         size_t request_length, const uint8_t *new_acl, size_t new_acl_length,
                                                         const uint8_t *hints, size_t hints_length);

AKUBOLINFE_MUST_USE akubolinfe_outcome akubolinfe_expand(akubolinfe_ledger ledger, const uint8_t *km0, size_t km0_length,
                                                         const uint8_t *acl, size_t acl_length, const uint8_t *request,
                                                         size_t request_length, const uint8_t *new_acl, size_t new_acl_length);

AKUBOLINFE_MUST_USE akubolinfe_run_outcome akubolinfe_run(akubolinfe_ledger ledger, const uint8_t *km0, size_t km0_length,
                                                          const uint8_t *acl, size_t acl_length,
                                                          const akubolinfe_certificate *row, size_t row_length,
                                                          const uint8_t *requests, size_t requests_length, uint8_t *answers,
                                                          size_t answers_length);

AKUBOLINFE_MUST_USE akubolinfe_run_outcome akubolinfe_prepared_run(akubolinfe_ledger ledger, const uint8_t *km0, size_t km0_length,
                                                                   const uint8_t *acl, size_t acl_length,
                                                                   const akubolinfe_certificate *row, size_t row_length,
                                                                   akubolinfe_form form, const uint8_t *requests,
                                                                   size_t requests_length, uint8_t *answers,
                                                                   size_t answers_length);

AKUBOLINFE_MUST_USE akubolinfe_cabinet_outcome akubolinfe_cabinet_load(akubolinfe_cabinet cabinet, size_t slot, uint64_t time);

AKUBOLINFE_MUST_USE akubolinfe_cabinet_outcome akubolinfe_cabinet_clear(akubolinfe_cabinet cabinet, size_t counter);

AKUBOLINFE_MUST_USE akubolinfe_cabinet_outcome akubolinfe_cabinet_request(akubolinfe_cabinet cabinet, size_t slot,
                                                                          const uint8_t *km0, size_t km0_length,
                                                                          const uint8_t *acl, size_t acl_length,
                                                                          const uint8_t *request, size_t request_length);

AKUBOLINFE_MUST_USE akubolinfe_cabinet_outcome akubolinfe_cabinet_narrow(
    akubolinfe_cabinet cabinet, size_t slot, const uint8_t *km0, size_t km0_length, const uint8_t *acl, size_t acl_length,
    const uint8_t *request, size_t request_length, const uint8_t *new_acl, size_t new_acl_length, const uint8_t *hints,
    size_t hints_length);

AKUBOLINFE_MUST_USE akubolinfe_cabinet_outcome akubolinfe_cabinet_expand(akubolinfe_cabinet cabinet, size_t slot,
                                                                         const uint8_t *km0, size_t km0_length,
                                                                         const uint8_t *acl, size_t acl_length,
                                                                         const uint8_t *request, size_t request_length,
                                                                         const uint8_t *new_acl, size_t new_acl_length);

AKUBOLINFE_MUST_USE akubolinfe_cabinet_run_outcome akubolinfe_cabinet_run(akubolinfe_cabinet cabinet, size_t slot,
                                                                          const uint8_t *km0, size_t km0_length,
                                                                          const uint8_t *acl, size_t acl_length,
                                                                          const akubolinfe_certificate *row, size_t row_length,
                                                                          const uint8_t *requests, size_t requests_length,
                                                                          uint8_t *answers, size_t answers_length);

AKUBOLINFE_MUST_USE akubolinfe_cabinet_run_outcome akubolinfe_cabinet_prepared_run(
    akubolinfe_cabinet cabinet, size_t slot, const uint8_t *km0, size_t km0_length, const uint8_t *acl, size_t acl_length,
    const akubolinfe_certificate *row, size_t row_length, akubolinfe_form form, const uint8_t *requests, size_t requests_length,
    uint8_t *answers, size_t answers_length);

/* Makes the form of an ACL, once for all its runs. Refused with the first fault of the ACL: 1, 2, 3, 12. */
AKUBOLINFE_MUST_USE akubolinfe_preparation akubolinfe_prepare(const uint8_t *acl, size_t acl_length);

/* The desk's verdict on a bundle and the ACL that comes with it. Refused with 1; 2, 3, 11, 12 (the first fault in the bundle, then in
 * the ACL). */
AKUBOLINFE_MUST_USE akubolinfe_verdict akubolinfe_desk(const uint8_t *bundle, size_t bundle_length, const uint8_t *acl,
                                                       size_t acl_length);

/* Where the verdict of akubolinfe_desk on the same bytes comes from. */
AKUBOLINFE_MUST_USE akubolinfe_verdict_place akubolinfe_locate_verdict(const uint8_t *bundle, size_t bundle_length, const uint8_t *acl,
                                                                       size_t acl_length);

/* Whether a verdict accepts. */
static inline bool akubolinfe_accepted(akubolinfe_verdict verdict)
{
    return verdict.refusal == 0 && verdict.step == 0;
}

/* Removes from an ACL what fails at the desk: every permission that fails ACLV3, and every blob action that fails a step WB1 to RB3.
 * Writes the new ACL to the front of `new_acl` and, to the front of `hints`, the hints with which akubolinfe_narrow_in_place takes it;
 * bytes after them are unchanged. Refused as akubolinfe_desk; then, if no step before the ACL fails, with 9. */
AKUBOLINFE_MUST_USE akubolinfe_trim_reply akubolinfe_trim(const uint8_t *bundle, size_t bundle_length, const uint8_t *acl,
                                                          size_t acl_length, uint8_t *new_acl, size_t new_acl_length,
                                                          uint8_t *hints, size_t hints_length);

/* Writes the subject of world certificate 3, 4 or 5 under ciphersuite 1 to 5 to the front of the buffer; bytes after it are unchanged.
 * `hashes` has 20 bytes for each hash, in this order: KNSO, KM, KMC (certificate 3: 60 bytes); KNSO, KM, KMC, KFIPS (4: 80 bytes);
 * KNSO, KRE, KRA (5: 60 bytes). Refused with 10, 11, 1, 9. */
AKUBOLINFE_MUST_USE akubolinfe_subject_reply akubolinfe_subject(uint64_t certificate, uint64_t suite, const uint8_t *hashes,
                                                                size_t hashes_length, uint8_t *buffer, size_t buffer_length);

/* Writes the listing of an ACL, one line for each record, to the front of the buffer; bytes after it are unchanged. Refused with the
 * first fault of the ACL (1, 2, 3, 12), then with 9. */
AKUBOLINFE_MUST_USE akubolinfe_text_reply akubolinfe_write_listing(const uint8_t *acl, size_t acl_length, uint8_t *buffer,
                                                                   size_t buffer_length);

/* Writes the ACL of a listing to the front of the buffer; bytes after it are unchanged. Every listing that is accepted is the one that
 * akubolinfe_write_listing writes for its ACL. Refused with 15 and the number of the first bad line, then with 9. */
AKUBOLINFE_MUST_USE akubolinfe_text_reply akubolinfe_read_listing(const uint8_t *text, size_t text_length, uint8_t *buffer,
                                                                  size_t buffer_length);

/* Writes the text of a file, one line for each record, to the front of the buffer; bytes after it are unchanged. `kind` is
 * AKUBOLINFE_TEXT_ACL or another of the five kinds. An unknown kind is refused with 10 before anything else is checked. Then refused
 * with the first fault of the file (1, 2, 3; 12 for an ACL), then with 9. */
AKUBOLINFE_MUST_USE akubolinfe_text_reply akubolinfe_write_text(uint32_t kind, const uint8_t *file, size_t file_length,
                                                                uint8_t *buffer, size_t buffer_length);

/* Writes the file of a text to the front of the buffer; bytes after it are unchanged. Every text that is accepted is the one that
 * akubolinfe_write_text writes for its file. An unknown kind is refused with 10 before anything else is checked. Then refused with 15
 * and the number of the first bad line, then with 9. */
AKUBOLINFE_MUST_USE akubolinfe_text_reply akubolinfe_read_text(uint32_t kind, const uint8_t *text, size_t text_length,
                                                               uint8_t *buffer, size_t buffer_length);

/* Says where the first fault of a file is. `kind` is AKUBOLINFE_TEXT_ACL or another of the five kinds; an unknown kind is refused with 10. */
AKUBOLINFE_MUST_USE akubolinfe_file_place akubolinfe_locate_file(uint32_t kind, const uint8_t *file, size_t file_length);

/* Say where the first fault of a call is: of akubolinfe_request_in_place, akubolinfe_narrow_in_place and akubolinfe_expand_in_place with
 * the same arguments. Nothing is charged or changed. */
AKUBOLINFE_MUST_USE akubolinfe_call_place akubolinfe_locate_request(akubolinfe_ledger ledger, const uint8_t *km0, size_t km0_length,
                                                                    const uint8_t *acl, size_t acl_length, const uint8_t *request,
                                                                    size_t request_length);

AKUBOLINFE_MUST_USE akubolinfe_call_place akubolinfe_locate_narrow(akubolinfe_ledger ledger, const uint8_t *km0, size_t km0_length,
                                                                   const uint8_t *acl, size_t acl_length, const uint8_t *request,
                                                                   size_t request_length, const uint8_t *new_acl,
                                                                   size_t new_acl_length, const uint8_t *hints, size_t hints_length);

AKUBOLINFE_MUST_USE akubolinfe_call_place akubolinfe_locate_expand(akubolinfe_ledger ledger, const uint8_t *km0, size_t km0_length,
                                                                   const uint8_t *acl, size_t acl_length, const uint8_t *request,
                                                                   size_t request_length, const uint8_t *new_acl,
                                                                   size_t new_acl_length);

#ifdef __cplusplus
}
#endif

#endif
