//! The desk: attestation steps over the reported facts of a bundle and the key's ACL.

use crate::acl::{Acl, Action, Group, MakeArchiveBlob, MakeBlob, ALLOW_SOFT_SLOTS};
use crate::bundle::{
    read_bundle, Bundle, CERT_KM_KMC, CERT_KM_KMC_KFIPS, CERT_KRE_KRA, CSR_IN_USE, CSR_KEY,
    ENCRYPTION_ADMITTED, ESN_OF_STATE, ESN_OF_WARRANT, HKFIPS, HKM, HKMC, HKNSO, HKRA, HKRE,
    KCMSG_KEY_HASH, KEY_GENERATION, KML, KNSOPUB_HASH, MODULE_STATE, MOST_BUNDLE_RECORDS,
    PUBKEYDATA_HASH, SIGNING_ADMITTED, WARRANT,
};
use crate::read_acl::{check_acl_length, read_acl};
use crate::record::{check_length, Refusal};
use crate::subject::recovery_mechanism;

/// "An acceptance names approach and, for approach 2, protection and recoverability."
#[derive(Clone, Copy, Debug, PartialEq)]
pub enum Verdict {
    AcceptFirst,
    AcceptSecond {
        protection: u8,
        recoverable: bool,
    },
    /// The first failing step.
    Fail(&'static str),
}

/// The steps of approach 2, in the order in which they run.
pub const STEPS: [&str; 21] = [
    "WV1", "MSCV1", "MSCV2", "MSCV3", "MSCV4", "MSCV5", "WBCV1", "WBCV2", "WBCV3", "KGCV1",
    "KGCV2", "ACLV3", "WB1", "WB2", "WB3", "WB6", "RB1", "RB2", "RB3", "KV3", "CSRL1",
];

/// The class of each permission, by bit.
#[derive(Clone, Copy, PartialEq)]
enum Class {
    Harmless,
    Signature,
    Encryption,
    Forbidden,
}

fn class_of(bit: u32) -> Class {
    match bit {
        // DuplicateHandle, GetAppData, ReduceACL, GetACL
        0..=3 => Class::Harmless,
        // Sign, Verify, SignModuleCert, UseAsCertificate
        4..=7 => Class::Signature,
        // Encrypt, Decrypt
        8 | 9 => Class::Encryption,
        // ExportAsPlain, SetAppData, ExpandACL, UseAsBlobKey, UseAsKM, UseAsLoaderKey
        _ => Class::Forbidden,
    }
}

/// The whole desk: refusals 1, then 2 and 3 over bundle and ACL, then 11, then the steps.
pub fn attest(bundle: &[u8], acl: &[u8]) -> Result<Verdict, Refusal> {
    let (bundle, acl, mechanism) = read_inputs(bundle, acl)?;
    let outcome = if bundle.policy.approach == 1 {
        first_approach(&bundle)
    } else {
        second_approach(&bundle, &acl, mechanism)
    };
    Ok(outcome.unwrap_or_else(Verdict::Fail))
}

/// Bundle and ACL, and the recovery mechanism that the bundle's suite calls for.
pub fn read_inputs(bundle: &[u8], acl: &[u8]) -> Result<(Bundle, Acl, u16), Refusal> {
    check_length(bundle, MOST_BUNDLE_RECORDS)?;
    check_acl_length(acl)?;
    let bundle = read_bundle(bundle)?;
    let acl = read_acl(acl)?;
    let suite = u64::from(bundle.policy.suite);
    let mechanism = recovery_mechanism(suite).ok_or(Refusal::NoSuchSuite)?;
    Ok((bundle, acl, mechanism))
}

/// A step that does not hold ends the run with its name.
fn step(name: &'static str, holds: bool) -> Result<(), &'static str> {
    if holds {
        Ok(())
    } else {
        Err(name)
    }
}

fn wv1(bundle: &Bundle) -> Result<(), &'static str> {
    step(
        "WV1",
        bundle.good(WARRANT) && bundle.present(ESN_OF_WARRANT),
    )
}

fn mscv1(bundle: &Bundle) -> Result<(), &'static str> {
    step("MSCV1", bundle.good(MODULE_STATE))
}

fn mscv2(bundle: &Bundle) -> Result<(), &'static str> {
    step("MSCV2", bundle.all_present(&[ESN_OF_STATE, KML]))
}

fn kgcv1(bundle: &Bundle) -> Result<(), &'static str> {
    step("KGCV1", bundle.good(KEY_GENERATION))
}

fn kgcv2(bundle: &Bundle) -> Result<(), &'static str> {
    step("KGCV2", bundle.equal(KCMSG_KEY_HASH, PUBKEYDATA_HASH))
}

/// "CSRL1 (if a CSR is in use, 10 present and equal to 9)."
fn csrl1(bundle: &Bundle) -> Result<(), &'static str> {
    let in_use = bundle.policy.bits & CSR_IN_USE != 0;
    step("CSRL1", !in_use || bundle.equal(CSR_KEY, PUBKEYDATA_HASH))
}

/// "Approach 1 runs WV1, MSCV1, MSCV2, KGCV1, KGCV2, CSRL1."
fn first_approach(bundle: &Bundle) -> Result<Verdict, &'static str> {
    wv1(bundle)?;
    mscv1(bundle)?;
    mscv2(bundle)?;
    kgcv1(bundle)?;
    kgcv2(bundle)?;
    csrl1(bundle)?;
    Ok(Verdict::AcceptFirst)
}

/// "Approach 2, first failure answered", in the order document 01 lists the steps.
fn second_approach(bundle: &Bundle, acl: &Acl, mechanism: u16) -> Result<Verdict, &'static str> {
    steps_before_acl(bundle)?;
    let (protection, recoverable) = check_acl(bundle, acl, mechanism)?;
    step("KV3", protection >= bundle.policy.lowest_protection)?;
    csrl1(bundle)?;
    Ok(Verdict::AcceptSecond {
        protection,
        recoverable,
    })
}

/// The steps of approach 2 that come before the ACL.
pub fn steps_before_acl(bundle: &Bundle) -> Result<(), &'static str> {
    wv1(bundle)?;
    mscv1(bundle)?;
    mscv2(bundle)?;
    step("MSCV3", bundle.equal(ESN_OF_WARRANT, ESN_OF_STATE))?;
    step(
        "MSCV4",
        !bundle.present(KNSOPUB_HASH) || bundle.equal(KNSOPUB_HASH, HKNSO),
    )?;
    step(
        "MSCV5",
        bundle.facts[HKM].is_none_or(|hkm| bundle.listed.contains(&hkm)),
    )?;
    step(
        "WBCV1",
        bundle.world_certificate_holds(CERT_KM_KMC, &[KNSOPUB_HASH, HKM, HKMC]),
    )?;
    step(
        "WBCV2",
        bundle.world_certificate_holds(CERT_KM_KMC_KFIPS, &[KNSOPUB_HASH, HKM, HKMC, HKFIPS]),
    )?;
    step(
        "WBCV3",
        bundle.world_certificate_holds(CERT_KRE_KRA, &[KNSOPUB_HASH, HKRE, HKRA]),
    )?;
    kgcv1(bundle)?;
    kgcv2(bundle)
}

/// The key's protection and whether it is recoverable, or the first failing step in record order.
pub fn check_acl(bundle: &Bundle, acl: &Acl, mechanism: u16) -> Result<(u8, bool), &'static str> {
    // "With no MakeBlob checked, 4, not kept."
    let mut protection = 4;
    let mut recoverable = false;
    for group in &acl.groups {
        if is_officers(bundle, group) {
            recoverable = true;
            continue;
        }
        for action in &group.actions {
            check_action(bundle, action, mechanism)?;
            match action {
                Action::OpPermissions(_) => {}
                // "The key's is the smallest."
                Action::MakeBlob(blob) => protection = protection.min(protection_of(blob)),
                // RB5
                Action::MakeArchiveBlob(_) => recoverable = true,
            }
        }
    }
    Ok((protection, recoverable))
}

/// "A group whose certifier equals a present field 4 marks the key recoverable and is skipped
/// (ACLV1)."
pub fn is_officers(bundle: &Bundle, group: &Group) -> bool {
    group.certifier.is_some() && group.certifier == bundle.facts[HKNSO]
}

/// The ACL's steps for one action of a group that is not skipped.
pub fn check_action(bundle: &Bundle, action: &Action, mechanism: u16) -> Result<(), &'static str> {
    match action {
        Action::OpPermissions(bits) => {
            step("ACLV3", bits & !admitted_bits(bundle.policy.bits) == 0)
        }
        Action::MakeBlob(blob) => check_make_blob(bundle, blob),
        Action::MakeArchiveBlob(blob) => check_archive_blob(bundle, blob, mechanism),
    }
}

/// "ACLV3 no forbidden bit, no signature or encryption bit that policy lacks": all other bits.
pub fn admitted_bits(policy: u8) -> u16 {
    let admitted = |bit: &u32| match class_of(*bit) {
        Class::Harmless => true,
        Class::Signature => policy & SIGNING_ADMITTED != 0,
        Class::Encryption => policy & ENCRYPTION_ADMITTED != 0,
        Class::Forbidden => false,
    };
    (0..16).filter(admitted).map(|bit| 1 << bit).sum()
}

/// "WB1 AllowKmOnly or kthash; WB2 hkm trusted, kmhash present and equal; WB3 no AllowNullKmToken;
/// WB6 kthash only with ktparams".
fn check_make_blob(bundle: &Bundle, blob: &MakeBlob) -> Result<(), &'static str> {
    step("WB1", blob.allow_km_only || blob.kthash.is_some())?;
    step(
        "WB2",
        blob.kmhash.is_some() && blob.kmhash == bundle.trusted_hkm(),
    )?;
    step("WB3", !blob.allow_null_km_token)?;
    step("WB6", blob.kthash.is_none() || blob.ktparams.is_some())
}

/// "RB1 hkre trusted; RB2 kahash present and equal; RB3 the mechanism that each ciphersuite calls
/// for".
fn check_archive_blob(
    bundle: &Bundle,
    blob: &MakeArchiveBlob,
    mechanism: u16,
) -> Result<(), &'static str> {
    let hkre = bundle.trusted_hkre();
    step("RB1", hkre.is_some())?;
    step("RB2", blob.kahash == hkre)?;
    step("RB3", blob.mechanism == mechanism)
}

/// "An action's protection: 1 module if AllowKmOnly; else 2 softcard if ktparams has
/// AllowSoftSlots; else 3 cardset."
pub fn protection_of(blob: &MakeBlob) -> u8 {
    let soft = blob
        .ktparams
        .is_some_and(|parameters| parameters.flags & ALLOW_SOFT_SLOTS != 0);
    if blob.allow_km_only {
        1
    } else if soft {
        2
    } else {
        3
    }
}

#[cfg(test)]
mod tests;
