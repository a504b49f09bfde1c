//! The files that are measured: records written field by field, small ones and the longest that the rules take.

pub const SIGN: u8 = 4;
pub const REDUCE_ACL: u8 = 2;
pub const EXPAND_ACL: u8 = 12;
pub const TIME: u64 = 1_000;

/// As many groups as there were at first, and as many as there may be.
pub const SOME: u8 = 16;
pub const ALL: u8 = 64;

const ACTIONS: u8 = 8;
const CERTIFICATES: u8 = 32;
const LINKS: u8 = 4;
const CHAINS: u8 = 4;
const LISTED: u8 = 32;
const NEVER_SPENT: u32 = u32::MAX;
const MECHANISM: u8 = 7;
const DELEGATING: u8 = 150;
const CERTIFIERS: u8 = 170;
const TEMPLATE: u8 = 90;

// Flag 6 of a blob action or request.
const STORED: u8 = 1 << 6;

type Record = [u8; 64];

/// A hash of twenty bytes that no other number gives.
pub fn hash(n: u8) -> [u8; 20] {
    let mut h = [0x5a; 20];
    h[19] = n;
    h
}

pub fn km0() -> [u8; 20] {
    hash(0)
}

fn record(kind: u8, flags: u8, parts: &[(usize, &[u8])]) -> Record {
    let mut r = [0; 64];
    r[0] = kind;
    r[3] = flags;
    for (at, bytes) in parts {
        r[*at..*at + bytes.len()].copy_from_slice(bytes);
    }
    r
}

fn limit(sort: u8, counter: u8, maximum: u32) -> Record {
    record(2, 0, &[(4, &[sort, counter]), (8, &maximum.to_be_bytes())])
}

fn permissions(bits: u16) -> Record {
    record(3, 0, &[(4, &bits.to_be_bytes())])
}

// A working blob under module key `key`, with a token of the given hash and at least 2 of at most 5 shares.
fn token_blob(key: u8, token: u8) -> Record {
    record(4, 0b1_1100, &[(4, &hash(key)), (24, &hash(token)), (44, &[0, 1, 2, 5, 0, 0, 0, 60])])
}

fn recovery_blob(key: u8, mechanism: u8) -> Record {
    record(5, 1, &[(4, &hash(key)), (24, &[0, mechanism])])
}

/// A group of four limits and eight actions, with a certifier that is presented last; `last` are the last action's permission bits, `maximum` the last
/// limit's.
fn full_group(g: u8, last: u16, maximum: u32) -> Vec<Record> {
    let certifier = hash(100 + CERTIFICATES - 1);
    let mut rows = vec![record(1, 3, &[(4, &certifier), (24, &[0, MECHANISM])])];
    rows.push(limit(1, 0, NEVER_SPENT));
    rows.push(limit(2, g, NEVER_SPENT));
    rows.push(limit(2, 255 - g, NEVER_SPENT));
    rows.push(limit(3, 0, maximum));
    for a in 0..ACTIONS - 1 {
        rows.push(if a % 2 == 0 { token_blob(6, 40 + a) } else { recovery_blob(7, 3) });
    }
    rows.push(permissions(last));
    rows
}

fn file(rows: &[Record]) -> Vec<u8> {
    rows.concat()
}

/// One group that permits Sign and ReduceACL.
pub fn small_acl() -> Vec<u8> {
    file(&[record(1, 0, &[]), permissions(1 << SIGN | 1 << REDUCE_ACL)])
}

/// Full groups; only the last action of the last group has these permissions.
fn last_of_all(groups: u8, bits: u16) -> Vec<u8> {
    let last = |g| if g == groups - 1 { bits } else { 1 };
    file(&(0..groups).flat_map(|g| full_group(g, last(g), NEVER_SPENT)).collect::<Vec<_>>())
}

/// Full groups; only the last one permits Sign and ReduceACL.
pub fn granted_last(groups: u8) -> Vec<u8> {
    last_of_all(groups, 1 << SIGN | 1 << REDUCE_ACL)
}

/// Full groups; only the last one permits ExpandACL.
pub fn expandable(groups: u8) -> Vec<u8> {
    last_of_all(groups, 1 << EXPAND_ACL)
}

/// Full groups, each of which permits Sign by its last action and is spent by its last limit.
pub fn all_spent(groups: u8) -> Vec<u8> {
    file(&(0..groups).flat_map(|g| full_group(g, 1 << SIGN, 0)).collect::<Vec<_>>())
}

/// Full groups that all permit Sign, by a key that is not presented; only the last names the mechanism of the certificates.
pub fn by_delegation(groups: u8) -> Vec<u8> {
    let rows = (0..groups).flat_map(|g| {
        let mechanism = if g == groups - 1 { MECHANISM } else { MECHANISM + 1 };
        let mut rows = full_group(g, 1 << SIGN, NEVER_SPENT);
        rows[0] = record(1, 3, &[(4, &hash(DELEGATING)), (24, &[0, mechanism])]);
        rows
    });
    file(&rows.collect::<Vec<_>>())
}

// A working blob under KM0 and a token, which is stored on a device of two, under the template of the given number; then its record of kind 15.
fn stored_blob(template: u8) -> [Record; 2] {
    let mut action = token_blob(0, 40);
    action[3] |= STORED;
    [action, record(15, 0b11, &[(4, &[0, 0, 0, 6]), (8, &hash(template))])]
}

/// As many records as there may be: full groups, whose eight actions store a blob. All admit the same, but for the template; only the last has that of
/// `stored_request`.
pub fn stored_last() -> Vec<u8> {
    let last = |g, a| g == ALL - 1 && a == ACTIONS - 1;
    let rows = (0..ALL).flat_map(|g| {
        let head = full_group(g, 0, NEVER_SPENT).into_iter().take(5);
        head.chain((0..ACTIONS).flat_map(move |a| stored_blob(if last(g, a) { TEMPLATE } else { TEMPLATE + 1 })))
    });
    file(&rows.collect::<Vec<_>>())
}

/// A working blob to be stored, with 32 certificates.
pub fn stored_request() -> Vec<u8> {
    let token = token_blob(0, 40);
    let asked = record(7, 1 | STORED, &[(4, &token[4..52]), (56, &TIME.to_be_bytes())]);
    let place = record(15, 0b11, &[(4, &[0, 0, 0, 4]), (8, &hash(TEMPLATE))]);
    let shown = full_request(SIGN).split_off(64);
    [&asked, &place, shown.as_slice()].concat()
}

/// A use of a permission, without certificates.
pub fn small_request(permission: u8) -> Vec<u8> {
    file(&[record(6, 0, &[(4, &[permission]), (56, &TIME.to_be_bytes())])])
}

/// A use of a permission with so many certificates.
pub fn certified_request(permission: u8, certificates: u8) -> Vec<u8> {
    let mut req = small_request(permission);
    for c in 0..certificates {
        req.extend(record(9, 0, &[(4, &hash(100 + c)), (24, &[0, MECHANISM])]));
    }
    req
}

/// A use of a permission with 32 certificates.
pub fn full_request(permission: u8) -> Vec<u8> {
    certified_request(permission, CERTIFICATES)
}

/// A working blob under KM0 and the first token of the full groups.
pub fn blob_request() -> Vec<u8> {
    let token = token_blob(0, 40);
    file(&[record(7, 1, &[(4, &token[4..52]), (56, &TIME.to_be_bytes())])])
}

// The key that the first links of a chain lead to; the last link of the last chain leads to the last certificate.
fn reached(chain: u8, links: u8) -> [u8; 20] {
    hash(match (chain, links) {
        (_, 0) => DELEGATING,
        (chain, LINKS) if chain == CHAINS - 1 => 100 + CERTIFICATES - 1,
        (chain, links) => DELEGATING + CHAINS * links + chain,
    })
}

/// A use of a permission with 32 certificates and 16 delegations: four chains of four that start at the same key, the last link first.
pub fn delegated_request(permission: u8) -> Vec<u8> {
    let mask = (1u16 << permission).to_be_bytes();
    let mut req = full_request(permission);
    for links in (0..LINKS).rev() {
        for chain in 0..CHAINS {
            req.extend(record(14, 0, &[(4, &reached(chain, links)), (24, &reached(chain, links + 1)), (44, &mask)]));
        }
    }
    req
}

/// The longest request: full groups that all permit a use, each with a certifier of its own; only the last is certified, by a chain of `delegated_by_last`.
pub fn own_certifiers(groups: u8, permission: u8) -> Vec<u8> {
    let rows = (0..groups).flat_map(|g| {
        let mut rows = full_group(g, 1 << permission, NEVER_SPENT);
        rows[0] = record(1, 3, &[(4, &hash(CERTIFIERS + g)), (24, &[0, MECHANISM])]);
        rows
    });
    file(&rows.collect::<Vec<_>>())
}

/// Full groups that all permit a use, by one key that is not presented, each with a mechanism of its own; only the last names that of the certificates.
pub fn own_mechanisms(groups: u8, permission: u8) -> Vec<u8> {
    let rows = (0..groups).flat_map(|g| {
        let mut rows = full_group(g, 1 << permission, NEVER_SPENT);
        let mechanism = if g == groups - 1 { [0, MECHANISM] } else { [1, g] };
        rows[0] = record(1, 3, &[(4, &hash(DELEGATING)), (24, &mechanism)]);
        rows
    });
    file(&rows.collect::<Vec<_>>())
}

/// A use with so many certificates and delegations, in chains of four, each with its last link first. Chain c begins at the certifier of the last group but c of
/// `own_certifiers`; the first chain leads to the last certificate, the others to none.
pub fn delegated_by_last(groups: u8, permission: u8, certificates: u8, delegations: u8) -> Vec<u8> {
    let mut req = certified_request(permission, certificates);
    let mask = (1u16 << permission).to_be_bytes();
    for chain in 0..delegations.div_ceil(LINKS) {
        let links = LINKS.min(delegations - LINKS * chain);
        let start = hash(CERTIFIERS + groups - 1 - chain % groups);
        let end = hash(if chain == 0 { 99 + certificates } else { 99 });
        let key = |link| hash(DELEGATING + LINKS * chain + link);
        for link in (0..links).rev() {
            let from = if link == 0 { start } else { key(link) };
            let to = if link + 1 == links { end } else { key(link + 1) };
            req.extend(record(14, 0, &[(4, &from), (24, &to), (44, &mask)]));
        }
    }
    req
}

/// For the growth of a request: groups with so many actions, each with a certifier of its own. The last is certified by what is presented: by a chain, else by
/// the last certificate; it has no certifier if nothing is presented.
pub fn growing_acl(groups: u8, actions: u8, certificates: u8, delegations: u8) -> Vec<u8> {
    let rows = (0..groups).flat_map(|g| {
        let full = full_group(g, 1 << SIGN, NEVER_SPENT);
        let certifier = match (g == groups - 1, certificates, delegations) {
            (true, 0, 0) => None,
            (true, c, 0) => Some(99 + c),
            _ => Some(CERTIFIERS + g),
        };
        let head = certifier.map_or(record(1, 0, &[]), |key| record(1, 1, &[(4, &hash(key))]));
        // The last of the eight actions is the one that permits; recovery blobs name their key, as an open group's have to.
        let limits = full[1..5].to_vec();
        [vec![head], limits, full[full.len() - usize::from(actions)..].to_vec()].concat()
    });
    file(&rows.collect::<Vec<_>>())
}

/// The longest files of a narrowing but for the permission that it needs: full groups, each of a mechanism of its own, with seven actions that store a blob and one that
/// permits ReduceACL.
pub fn worst_narrowing_acl() -> Vec<u8> {
    let acl = own_mechanisms(ALL, REDUCE_ACL);
    let (records, _) = acl.as_chunks::<64>();
    let rows = records.iter().flat_map(|rec| match rec[0] {
        4 | 5 => stored_blob(TEMPLATE).to_vec(),
        _ => vec![*rec],
    });
    file(&rows.collect::<Vec<_>>())
}

/// The same groups without certifiers.
pub fn opened(mut acl: Vec<u8>) -> Vec<u8> {
    acl.chunks_mut(64).filter(|rec| rec[0] == 1).for_each(|rec| rec[3..26].fill(0));
    acl
}

// The groups' limits of a sort get this maximum, but for that of the last group, if it is spared.
fn limited(mut acl: Vec<u8>, sort: u8, maximum: u32, spared: bool) -> Vec<u8> {
    let mut limits: Vec<_> = acl.chunks_mut(64).filter(|rec| rec[0] == 2 && rec[4] == sort).collect();
    if spared {
        limits.pop();
    }
    limits.into_iter().for_each(|rec| rec[8..12].copy_from_slice(&maximum.to_be_bytes()));
    acl
}

/// Open groups that permit Sign, of which all but the last are spent.
pub fn last_unspent(groups: u8) -> Vec<u8> {
    limited(all_permit(groups), 3, 0, true)
}

/// Open groups that permit Sign, so many times after each load.
pub fn used_up(groups: u8, uses: u32) -> Vec<u8> {
    limited(all_permit(groups), 1, uses, false)
}

/// Open groups that permit Sign in the first seconds after a load.
pub fn in_first_seconds(groups: u8, seconds: u32) -> Vec<u8> {
    limited(all_permit(groups), 3, seconds, false)
}

fn all_permit(groups: u8) -> Vec<u8> {
    opened(file(&(0..groups).flat_map(|g| full_group(g, 1 << SIGN, NEVER_SPENT)).collect::<Vec<_>>()))
}

/// The request at a later time.
pub fn later(mut request: Vec<u8>, seconds: u64) -> Vec<u8> {
    request[56..64].copy_from_slice(&(TIME + seconds).to_be_bytes());
    request
}

/// The certificates of a request file, decoded: hash and mechanism of each.
pub fn row(request: &[u8]) -> Vec<([u8; 20], u16)> {
    request[64..].chunks(64).filter(|rec| rec[0] == 9).map(|rec| (rec[4..24].try_into().unwrap(), u16::from_be_bytes([rec[24], rec[25]]))).collect()
}

/// A file whose first record is bad.
pub fn bad_first(mut file: Vec<u8>) -> Vec<u8> {
    file[1] = 1;
    file
}

/// The bundle with a warrant whose signature is bad, so that the first step fails.
pub fn bad_warrant(mut bundle: Vec<u8>) -> Vec<u8> {
    let signature = bundle.chunks_mut(64).find(|rec| rec[0] == 11).expect("a signature");
    signature[5] = 0;
    bundle
}

/// The listing of full groups in which each line is as long as it can be, but for the eight actions, which are all this one.
fn longest_listing(action: &str) -> Vec<u8> {
    let hash = "5a".repeat(20);
    let limits: String = (252..=255).map(|c| format!("limit counter {c} uses 4294967295\n")).collect();
    format!("group certifier {hash} mechanism 65535\n{limits}{}", format!("{action}\n").repeat(8)).repeat(64).into_bytes()
}

/// The longest listing.
pub fn longest_blobs() -> Vec<u8> {
    let hash = "5a".repeat(20);
    longest_listing(&format!(
        "MakeBlob AllowKmOnly AllowNonKm0 kmhash {hash} kthash {hash} \
         ktparams AllowSoftSlots needed 10 total 64 seconds 4294967295 AllowNullKmToken blobfile\n\
         blobfile devices 4294967295 template {hash}"
    ))
}

pub fn longest_permissions() -> Vec<u8> {
    longest_listing(
        "OpPermissions DuplicateHandle GetAppData ReduceACL GetACL Sign Verify SignModuleCert UseAsCertificate \
         Encrypt Decrypt ExportAsPlain SetAppData ExpandACL UseAsBlobKey UseAsKM UseAsLoaderKey",
    )
}

/// A hint for each of `groups` groups: its own place, and each of its first `actions` actions by its own place.
pub fn same_places(groups: u8, actions: u8) -> Vec<u8> {
    let taken: Vec<u8> = (0..actions).collect();
    file(&(0..groups).map(|g| record(13, 0, &[(4, &[g]), (8, &taken)])).collect::<Vec<_>>())
}

pub fn full_hints(groups: u8) -> Vec<u8> {
    same_places(groups, ACTIONS)
}

/// The ACL with one bit of its last action added: what makes the last test of a narrowing fail.
pub fn widened(acl: &[u8]) -> Vec<u8> {
    let mut new = acl.to_vec();
    let last = new.len() - 64;
    new[last + 5] |= 1 << 5;
    new
}

/// A bundle that the desk accepts by approach 2, with every field and signature; `listed` module keys, the right one last.
pub fn bundle(listed: u8) -> Vec<u8> {
    let equal = |n| match n {
        2 => 1,
        5 => 4,
        9 | 10 => 8,
        other => other,
    };
    let mut rows: Vec<Record> = (1..=13).map(|n| record(10, 0, &[(4, &[n]), (8, &hash(equal(n)))])).collect();
    rows.extend((1..=listed).map(|n| record(10, 0, &[(4, &[14]), (8, &hash(if n == listed { 6 } else { 200 + n }))])));
    rows.extend((1..=6).map(|n| record(11, 0, &[(4, &[n, 1])])));
    rows.push(record(12, 0, &[(4, &[4, 2, 7, 2])]));
    file(&rows)
}

pub fn full_bundle() -> Vec<u8> {
    bundle(LISTED)
}

/// The officer's group, which permits ExportAsPlain, then one that signs and makes blobs under a softcard.
pub fn small_key() -> Vec<u8> {
    let officer = record(1, 1, &[(4, &hash(4))]);
    file(&[officer, permissions(1 << 10), record(1, 0, &[]), permissions(1 << SIGN), token_blob(6, 40), recovery_blob(7, 3)])
}

/// Full groups that the desk accepts: the officer's first, so that recovery blobs may be made.
pub fn full_key(groups: u8) -> Vec<u8> {
    let mut acl = granted_last(groups);
    acl[4..24].copy_from_slice(&hash(4));
    acl
}

/// The hashes of the longest subject.
pub fn four_hashes() -> Vec<u8> {
    (1..=4).flat_map(hash).collect()
}
