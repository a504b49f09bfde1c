//! Listings: an ACL as text, a line for each record, and back. Both go over their input twice: the buffer is written once nothing can refuse any more.

use super::acl::{self, State};
use super::lines::{line, Front, Length};
use super::record::*;
use super::words::record;
use super::{NotListed, Refusal};

/// Writes the listing of an ACL to the front of the buffer; its length.
pub fn write_listing(acl: &[u8], buffer: &mut [u8]) -> Result<u64, NotListed> {
    let refused = |why: Refusal| NotListed::Refused(why.into());
    let acl = whole(acl, ACL_RECORDS).map_err(refused)?;
    acl::read(acl, &mut ()).map_err(refused)?;
    let mut length = Length(0);
    acl.iter().for_each(|rec| line(&mut length, rec));
    let mut front = Front(buffer.get_mut(..length.0).ok_or(refused(Refusal::ShortBuffer))?);
    acl.iter().for_each(|rec| line(&mut front, rec));
    Ok(length.0 as u64)
}

// The number of lines, or the first bad one, from 1.
fn check(mut text: &[u8]) -> Result<usize, NotListed> {
    let mut state = State::start();
    let mut count = 0;
    while !text.is_empty() {
        let bad = NotListed::BadLine(count as u64 + 1);
        let (rec, rest) = record(text).ok_or(bad)?;
        state.step(&[rec], 0, &mut ()).map_err(|_| bad)?;
        (count, text) = (count + 1, rest);
    }
    state.end().map_err(|_| NotListed::BadLine(count as u64 + 1))?;
    Ok(count)
}

/// Writes the ACL of a listing to the front of the buffer; its length.
pub fn read_listing(mut text: &[u8], buffer: &mut [u8]) -> Result<u64, NotListed> {
    let count = check(text)?;
    let (places, _) = buffer.as_chunks_mut();
    let places = places.get_mut(..count).ok_or(NotListed::Refused(Refusal::ShortBuffer.into()))?;
    for place in places {
        (*place, text) = record(text).expect("a line that was read before");
    }
    Ok(64 * count as u64)
}
