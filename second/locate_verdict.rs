//! What is at fault in the desk's inputs, or fails its step: a field, a signature, or an action of
//! the ACL.

use crate::acl::{Acl, Action};
use crate::bundle::{
    read_bundle, Bundle, CERT_KM_KMC, CERT_KM_KMC_KFIPS, CERT_KRE_KRA, CSR_IN_USE, CSR_KEY,
    ESN_OF_STATE, ESN_OF_WARRANT, HKFIPS, HKM, HKMC, HKNSO, HKRA, HKRE, KCMSG_KEY_HASH,
    KEY_GENERATION, KML, KNSOPUB_HASH, MODULE_STATE, PUBKEYDATA_HASH, WARRANT,
};
use crate::desk::{admitted_bits, check_action, is_officers, protection_of, STEPS};
use crate::place::{Input, VerdictPlace};
use crate::read_acl::read_acl;
use crate::read_file::{length_fault, record_fault, Fault, FileReader, Part};
use crate::record::{Refusal, RECORD_LENGTH};
use crate::subject::recovery_mechanism;
use crate::text::TextKind;

/// What fails a step of the bundle.
const SIGNATURE_ABSENT: u8 = 1;
const SIGNATURE_NOT_GOOD: u8 = 2;
const FIELD_ABSENT: u8 = 3;
const FIELD_NOT_EQUAL: u8 = 4;

pub fn locate_verdict(bundle: &[u8], acl: &[u8]) -> VerdictPlace {
    located(bundle, acl).err().unwrap_or_default()
}

fn located(bundle: &[u8], acl: &[u8]) -> Result<(), VerdictPlace> {
    let inputs = [
        (Input::Bundle, TextKind::Bundle, bundle),
        (Input::Acl, TextKind::Acl, acl),
    ];
    for (input, kind, file) in inputs {
        length_fault(kind, file).map_err(|fault| VerdictPlace::of_fault(input, fault))?;
    }
    for (input, kind, file) in inputs {
        record_fault(FileReader::of(kind), file)
            .map_err(|fault| VerdictPlace::of_fault(input, fault))?;
    }
    let records = bundle.len() / RECORD_LENGTH;
    let (Ok(bundle), Ok(acl)) = (read_bundle(bundle), read_acl(acl)) else {
        unreachable!("files without fault");
    };
    let mechanism = recovery_mechanism(u64::from(bundle.policy.suite)).ok_or_else(|| {
        // The policy is the last record.
        let fault = Fault {
            refusal: Refusal::NoSuchSuite,
            part: Part::Record,
            record: Some(records - 1),
        };
        VerdictPlace::of_fault(Input::Bundle, fault)
    })?;
    if bundle.policy.approach == 1 {
        first_approach(&bundle)
    } else {
        second_approach(&bundle, &acl, mechanism)
    }
}

/// "Approach 1 runs WV1, MSCV1, MSCV2, KGCV1, KGCV2, CSRL1."
fn first_approach(bundle: &Bundle) -> Result<(), VerdictPlace> {
    module_steps(bundle)?;
    key_steps(bundle)?;
    csrl1(bundle)
}

fn second_approach(bundle: &Bundle, acl: &Acl, mechanism: u16) -> Result<(), VerdictPlace> {
    module_steps(bundle)?;
    world_steps(bundle)?;
    key_steps(bundle)?;
    acl_steps(bundle, acl, mechanism)?;
    kv3(bundle, acl)?;
    csrl1(bundle)
}

/// WV1, MSCV1 and MSCV2.
fn module_steps(bundle: &Bundle) -> Result<(), VerdictPlace> {
    signature_good(bundle, "WV1", WARRANT)?;
    fields_present(bundle, "WV1", &[ESN_OF_WARRANT])?;
    signature_good(bundle, "MSCV1", MODULE_STATE)?;
    fields_present(bundle, "MSCV2", &[ESN_OF_STATE, KML])
}

/// MSCV3, MSCV4, MSCV5, WBCV1, WBCV2 and WBCV3.
fn world_steps(bundle: &Bundle) -> Result<(), VerdictPlace> {
    field_equal(bundle, "MSCV3", ESN_OF_STATE, ESN_OF_WARRANT)?;
    if bundle.present(KNSOPUB_HASH) {
        fields_present(bundle, "MSCV4", &[HKNSO])?;
        field_equal(bundle, "MSCV4", KNSOPUB_HASH, HKNSO)?;
    }
    if bundle.facts[HKM].is_some_and(|hkm| !bundle.listed.contains(&hkm)) {
        return Err(of_bundle("MSCV5", FIELD_NOT_EQUAL, HKM));
    }
    let kmc = [KNSOPUB_HASH, HKM, HKMC];
    let kfips = [KNSOPUB_HASH, HKM, HKMC, HKFIPS];
    let kra = [KNSOPUB_HASH, HKRE, HKRA];
    let certificates: [(&str, usize, &[usize]); 3] = [
        ("WBCV1", CERT_KM_KMC, &kmc),
        ("WBCV2", CERT_KM_KMC_KFIPS, &kfips),
        ("WBCV3", CERT_KRE_KRA, &kra),
    ];
    for (step, signature, fields) in certificates {
        if bundle.signatures[signature].is_some() {
            signature_good(bundle, step, signature)?;
            fields_present(bundle, step, fields)?;
        }
    }
    Ok(())
}

/// KGCV1 and KGCV2.
fn key_steps(bundle: &Bundle) -> Result<(), VerdictPlace> {
    signature_good(bundle, "KGCV1", KEY_GENERATION)?;
    fields_present(bundle, "KGCV2", &[KCMSG_KEY_HASH, PUBKEYDATA_HASH])?;
    field_equal(bundle, "KGCV2", KCMSG_KEY_HASH, PUBKEYDATA_HASH)
}

fn csrl1(bundle: &Bundle) -> Result<(), VerdictPlace> {
    if bundle.policy.bits & CSR_IN_USE == 0 {
        return Ok(());
    }
    fields_present(bundle, "CSRL1", &[CSR_KEY])?;
    field_equal(bundle, "CSRL1", CSR_KEY, PUBKEYDATA_HASH)
}

fn signature_good(bundle: &Bundle, step: &str, signature: usize) -> Result<(), VerdictPlace> {
    match bundle.signatures[signature] {
        None => Err(of_bundle(step, SIGNATURE_ABSENT, signature)),
        Some(false) => Err(of_bundle(step, SIGNATURE_NOT_GOOD, signature)),
        Some(true) => Ok(()),
    }
}

/// The first of the fields that is absent fails the step.
fn fields_present(bundle: &Bundle, step: &str, fields: &[usize]) -> Result<(), VerdictPlace> {
    let absent = fields.iter().find(|&&field| !bundle.present(field));
    absent.map_or(Ok(()), |&field| Err(of_bundle(step, FIELD_ABSENT, field)))
}

fn field_equal(
    bundle: &Bundle,
    step: &str,
    field: usize,
    other: usize,
) -> Result<(), VerdictPlace> {
    if bundle.equal(field, other) {
        return Ok(());
    }
    Err(of_bundle(step, FIELD_NOT_EQUAL, field))
}

fn of_bundle(step: &str, what: u8, number: usize) -> VerdictPlace {
    VerdictPlace {
        what,
        number: number as u8,
        ..of_step(step)
    }
}

fn of_step(name: &str) -> VerdictPlace {
    let before = STEPS.iter().take_while(|step| **step != name).count();
    VerdictPlace {
        step: before as u8 + 1,
        ..VerdictPlace::default()
    }
}

/// The actions that the desk judges, in record order, each with its group's index and its own.
fn checked<'a>(
    bundle: &'a Bundle,
    acl: &'a Acl,
) -> impl Iterator<Item = (usize, usize, &'a Action)> {
    let groups = acl.groups.iter().enumerate();
    groups
        .filter(|(_, group)| !is_officers(bundle, group))
        .flat_map(|(index, group)| {
            let actions = group.actions.iter().enumerate();
            actions.map(move |(at, action)| (index, at, action))
        })
}

/// "The first action, in record order, that fails a step; for ACLV3 the lowest bit that is not
/// admitted."
fn acl_steps(bundle: &Bundle, acl: &Acl, mechanism: u16) -> Result<(), VerdictPlace> {
    for (group, at, action) in checked(bundle, acl) {
        let Err(step) = check_action(bundle, action, mechanism) else {
            continue;
        };
        let permission = match action {
            Action::OpPermissions(bits) => {
                let refused = bits & !admitted_bits(bundle.policy.bits);
                Some(refused.trailing_zeros() as usize)
            }
            _ => None,
        };
        return Err(VerdictPlace {
            group: Some(group),
            action: Some(at),
            permission,
            ..of_step(step)
        });
    }
    Ok(())
}

/// "KV3: the first checked MakeBlob action, in record order, whose protection is below the policy's
/// lowest."
fn kv3(bundle: &Bundle, acl: &Acl) -> Result<(), VerdictPlace> {
    let lowest = bundle.policy.lowest_protection;
    let below = |action: &Action| match action {
        Action::MakeBlob(blob) => protection_of(blob) < lowest,
        _ => false,
    };
    let first = checked(bundle, acl).find(|(_, _, action)| below(action));
    first.map_or(Ok(()), |(group, at, _)| {
        Err(VerdictPlace {
            group: Some(group),
            action: Some(at),
            ..of_step("KV3")
        })
    })
}

#[cfg(test)]
mod tests;
