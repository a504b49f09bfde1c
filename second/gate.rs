//! The gate: when a group of an ACL grants a request.

use crate::acl::{Acl, Action, Group, Limit, MakeBlob, Sort};
use crate::blobfile::blobfile_admits;
use crate::certify::is_certified;
use crate::ledger::Ledger;
use crate::read_acl::{check_acl_length, read_acl};
use crate::record::{Hash, Refusal};
use crate::request::{check_request_length, read_request, Asked, Presented, Request, Token};

pub const KM0_LENGTH: usize = 20;

/// "The null module key (01, then nineteen zero bytes, document 004)".
pub const NULL_MODULE_KEY: Hash = [1, 0, 0, 0, 0, 0, 0, 0, 0, 0, 0, 0, 0, 0, 0, 0, 0, 0, 0, 0];

/// Refusal 1: "KM0 hash not 20 bytes".
pub fn check_km0_length(km0: &[u8]) -> Result<(), Refusal> {
    if km0.len() == KM0_LENGTH {
        Ok(())
    } else {
        Err(Refusal::Length)
    }
}

/// A request: the reply is the granting group's place and the charged ledger.
pub fn request(
    ledger: &Ledger,
    km0: &[u8],
    acl: &[u8],
    request: &[u8],
) -> Result<(usize, Ledger), Refusal> {
    check_km0_length(km0)?;
    check_acl_length(acl)?;
    check_request_length(request)?;
    let acl = read_acl(acl)?;
    let (request, presented) = read_request(request, None)?;
    grant(ledger, km0, &acl, &request, &presented)
}

/// Refusals 4, 5, 6 and 7 in this order, 6 and 7 with the group that came nearest; else the lowest group that admits, is certified and is
/// unspent, charged.
pub fn grant(
    ledger: &Ledger,
    km0: &[u8],
    acl: &Acl,
    request: &Request,
    presented: &Presented,
) -> Result<(usize, Ledger), Refusal> {
    // "Time before load time or last time."
    if request.time < ledger.load_time || request.time < ledger.last_time {
        return Err(Refusal::TooEarly);
    }
    let mut places: Vec<usize> = (0..acl.groups.len()).collect();
    places.retain(|&place| admits(&acl.groups[place], km0, request));
    let nearest = *places.first().ok_or(Refusal::NotAdmitted)?;
    places.retain(|&place| is_certified(&acl.groups[place], &request.asked, presented));
    let nearest = *places.first().ok_or(Refusal::NotCertified { nearest })?;
    places.retain(|&place| is_unspent(&acl.groups[place], place, ledger, request.time));
    let place = *places.first().ok_or(Refusal::Spent { nearest })?;
    Ok((
        place,
        ledger.charged(&acl.groups[place], place, request.time),
    ))
}

/// "It admits if one of its actions does."
pub fn admits(group: &Group, km0: &[u8], request: &Request) -> bool {
    group.actions.iter().any(|action| {
        action_admits(action, km0, &request.asked)
            && blobfile_admits(&action.blobfile(), &request.blobfile)
    })
}

/// Whether an action admits what is asked, wherever the blob goes.
fn action_admits(action: &Action, km0: &[u8], asked: &Asked) -> bool {
    match (action, asked) {
        // "Use: the bit is set."
        (Action::OpPermissions(bits), Asked::Use(permission)) => bits >> permission & 1 == 1,
        (Action::MakeBlob(blob), Asked::Blob { module_key, token }) => {
            blob_admits(blob, km0, module_key, token)
        }
        // "Recovery blob: same mechanism, and same key hash if kahash is present."
        (Action::MakeArchiveBlob(blob), Asked::Recovery { key, mechanism }) => {
            blob.mechanism == *mechanism && holds(&blob.kahash, key)
        }
        _ => false,
    }
}

/// A hash restriction holds if it is absent or names this very hash.
fn holds(restriction: &Option<Hash>, hash: &Hash) -> bool {
    restriction.is_none() || restriction.as_ref() == Some(hash)
}

/// "Blob: every present restriction holds."
fn blob_admits(blob: &MakeBlob, km0: &[u8], module_key: &Hash, token: &Option<Token>) -> bool {
    let module_key_good =
        holds(&blob.kmhash, module_key) && (blob.allow_non_km0 || module_key[..] == *km0);
    let null_key = *module_key == NULL_MODULE_KEY;
    module_key_good
        && match token {
            None => direct_blob_admits(blob, null_key),
            Some(token) => token_blob_admits(blob, null_key, token),
        }
}

/// "A direct blob needs AllowKmOnly and neither kthash nor ktparams"; under the null module key it
/// "is never admitted".
fn direct_blob_admits(blob: &MakeBlob, null_key: bool) -> bool {
    blob.allow_km_only && blob.kthash.is_none() && blob.ktparams.is_none() && !null_key
}

/// "A token's hash equals kthash if present, and its parameters are equal to or tighter than
/// ktparams if present"; under the null module key "a token blob only with AllowNullKmToken".
fn token_blob_admits(blob: &MakeBlob, null_key: bool, token: &Token) -> bool {
    let parameters_good = match blob.ktparams {
        None => true,
        Some(named) => token.parameters.no_looser_than(named),
    };
    holds(&blob.kthash, &token.hash) && parameters_good && (!null_key || blob.allow_null_km_token)
}

/// "It is unspent if its own count is below any sort 1 maximum, each counter named is below its
/// maximum, elapsed seconds are below any sort 3 maximum, and neither its own count nor a named
/// counter is 4,294,967,295."
pub fn is_unspent(group: &Group, place: usize, ledger: &Ledger, time: u64) -> bool {
    let own_count = ledger.group_counts[place];
    let elapsed = time - ledger.load_time;
    own_count != u32::MAX
        && group
            .limits
            .iter()
            .all(|limit| is_open(limit, own_count, elapsed, ledger))
}

/// Whether a limit is not spent.
pub fn is_open(limit: &Limit, own_count: u32, elapsed: u64, ledger: &Ledger) -> bool {
    match limit.sort {
        Sort::UsesPerLoad => own_count < limit.maximum,
        Sort::Counter(counter) => {
            let count = ledger.counters[usize::from(counter)];
            count < limit.maximum && count != u32::MAX
        }
        Sort::SecondsSinceLoad => elapsed < u64::from(limit.maximum),
    }
}

#[cfg(test)]
mod tests;
