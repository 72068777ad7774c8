//! Owned ids and clone.

use crate::law::room_for;
use crate::records::{Borrow, Bytes16, Manifest, Size, SstId};
use crate::{Outcome, Refused};

/// "Ids of all views, in record order, repeats kept, that no borrow names."
pub fn owned(manifest: &Manifest) -> Vec<SstId> {
    let ids = manifest.views().into_iter().map(|view| view.sst);
    ids.filter(|id| manifest.borrows.iter().all(|borrow| !borrow.ids.contains(id))).collect()
}

pub fn owned_within(manifest: &Manifest, room: &Size) -> Outcome<Vec<SstId>> {
    let ids = owned(manifest);
    room_for(Size { ids: ids.len() as u64, ..Size::default() }, room)?;
    Ok(ids)
}

/// The old borrows "with source checkpoint := final checkpoint"; 15 for one that has none.
pub fn handed_on(manifest: &Manifest) -> Outcome<Vec<Borrow>> {
    let hand_on = |borrow: &Borrow| match borrow.last {
        None => Err(Refused(15, 0)),
        Some(last) => Ok(Borrow { source: last, last: None, ..borrow.clone() }),
    };
    manifest.borrows.iter().map(hand_on).collect()
}

/// Judges 4, then 16, then gives each borrow its fresh final checkpoint.
pub fn finish(mut manifest: Manifest, fresh: &[Bytes16], room: &Size) -> Outcome<Manifest> {
    room_for(manifest.size(), room)?;
    if fresh.len() < manifest.borrows.len() {
        return Err(Refused(16, 0));
    }
    for (borrow, fresh) in manifest.borrows.iter_mut().zip(fresh) {
        borrow.last = Some(*fresh);
    }
    Ok(manifest)
}

pub fn clone(
    manifest: &Manifest,
    path: &[u8],
    checkpoint: Bytes16,
    fresh: &[Bytes16],
    room: &Size,
) -> Outcome<Manifest> {
    let mut borrows = handed_on(manifest)?;
    // "With ... the owned ids, even if none."
    borrows.push(Borrow { path: path.to_vec(), source: checkpoint, last: None, ids: owned(manifest) });
    finish(Manifest { initialized: false, borrows, ..manifest.clone() }, fresh, room)
}
