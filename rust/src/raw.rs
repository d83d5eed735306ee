//! The exported functions and their structs, as `include/hourbracken.h` has them, and the same over slices.
//! `scripts/declared` holds these lines to the proved source by name and type. A field of which an answer does not
//! speak is zero.

use crate::Sizes;

/// The offset is that of refusals 13, 14 and 15, else zero.
#[repr(C)]
pub struct HbLoaded {
    pub refusal: u64,
    pub offset: usize,
}

#[repr(C)]
pub struct HbBegun {
    pub refusal: u64,
    pub start: u64,
    pub desk: usize,
}

/// Place and length are zero where there is nothing.
#[repr(C)]
pub struct HbFound {
    pub refusal: u64,
    pub kind: u64,
    pub at: usize,
    pub len: usize,
}

/// The clashes of refusal 9 are counted, also those that the list has no room for.
#[repr(C)]
pub struct HbCommitted {
    pub refusal: u64,
    pub number: u64,
    pub clashes: usize,
}

/// The clashes are as above; the length is that of the record.
#[repr(C)]
pub struct HbRecorded {
    pub refusal: u64,
    pub number: u64,
    pub clashes: usize,
    pub len: usize,
}

/// The offset is where the whole records end, or that of the record that is refused 14, 10 or 11.
#[repr(C)]
pub struct HbReplayed {
    pub refusal: u64,
    pub offset: usize,
}

#[repr(C)]
pub struct HbSwept {
    pub refusal: u64,
    pub cutoff: u64,
    pub dropped: u64,
}

#[repr(C)]
pub struct HbThinned {
    pub refusal: u64,
    pub dropped: u64,
}

#[repr(C)]
pub struct HbCounted {
    pub refusal: u64,
    pub keys: u64,
    pub versions: u64,
    pub desks: u64,
}

#[repr(C)]
pub struct HbDumped {
    pub refusal: u64,
    pub len: usize,
}

/// The length is that of the answers, the offset that of the record that is refused 18 or 19.
#[repr(C)]
pub struct HbBatched {
    pub refusal: u64,
    pub len: usize,
    pub offset: usize,
}

/// A kind is one of these two, or zero for nothing there.
pub const OWN_VALUE: u64 = 1;
pub const HALL_VALUE: u64 = 2;

/// Memory that a call may change: a pointer and a length, as two arguments.
type Memory = *mut u8;
/// Memory that it only looks at.
type Bytes = *const u8;

extern "C" {
    fn hb_make(
        hall: Memory,
        hall_len: usize,
        desk: Memory,
        desk_len: usize,
        key_rooms: u64,
        version_rooms: u64,
        desks: u64,
    ) -> u64;
    fn hb_load(
        dump: Bytes,
        dump_len: usize,
        hall: Memory,
        hall_len: usize,
        desk: Memory,
        desk_len: usize,
        key_rooms: u64,
        version_rooms: u64,
        desks: u64,
    ) -> HbLoaded;
    fn hb_begin(hall: Memory, hall_len: usize, desk: Memory, desk_len: usize) -> HbBegun;
    fn hb_read(
        hall: Bytes,
        hall_len: usize,
        desk: Bytes,
        desk_len: usize,
        start: u64,
        key: Bytes,
        key_len: usize,
    ) -> HbFound;
    fn hb_newest(hall: Bytes, hall_len: usize, key: Bytes, key_len: usize) -> HbFound;
    fn hb_as_of(hall: Bytes, hall_len: usize, number: u64, key: Bytes, key_len: usize) -> HbFound;
    fn hb_put(
        hall: Bytes,
        hall_len: usize,
        desk: Memory,
        desk_len: usize,
        start: u64,
        key: Bytes,
        key_len: usize,
        value: Bytes,
        value_len: usize,
    ) -> u64;
    fn hb_delete(
        hall: Bytes,
        hall_len: usize,
        desk: Memory,
        desk_len: usize,
        start: u64,
        key: Bytes,
        key_len: usize,
    ) -> u64;
    fn hb_commit(
        hall: Memory,
        hall_len: usize,
        desk: Memory,
        desk_len: usize,
        start: u64,
        list: Memory,
        list_len: usize,
    ) -> HbCommitted;
    fn hb_commit_journal(
        hall: Memory,
        hall_len: usize,
        desk: Memory,
        desk_len: usize,
        start: u64,
        list: Memory,
        list_len: usize,
        journal: Memory,
        journal_len: usize,
    ) -> HbRecorded;
    fn hb_replay(
        hall: Memory,
        hall_len: usize,
        desk: Memory,
        desk_len: usize,
        journal: Bytes,
        journal_len: usize,
    ) -> HbReplayed;
    fn hb_abort(hall: Bytes, hall_len: usize, desk: Memory, desk_len: usize, start: u64) -> u64;
    fn hb_sweep(hall: Memory, hall_len: usize, desk: Bytes, desk_len: usize, limit: u64) -> HbSwept;
    fn hb_thin(hall: Memory, hall_len: usize, desk: Bytes, desk_len: usize, limit: u64) -> HbThinned;
    fn hb_batch(
        hall: Memory,
        hall_len: usize,
        desk: Memory,
        desk_len: usize,
        batch: Bytes,
        batch_len: usize,
        answers: Memory,
        answers_len: usize,
    ) -> HbBatched;
    fn hb_counts(hall: Bytes, hall_len: usize, desk: Bytes, desk_len: usize) -> HbCounted;
    fn hb_dump(hall: Bytes, hall_len: usize, out: Memory, out_len: usize) -> HbDumped;
}

// SAFETY of every function below: a slice's pointer and length name bytes that are there; what the callee may change is
// borrowed exclusively, so it overlaps nothing; the callee keeps no pointer.

pub fn make(hall: &mut [u8], desk: &mut [u8], sizes: Sizes) -> u64 {
    let (hall_at, desk_at) = (hall.as_mut_ptr(), desk.as_mut_ptr());
    let (keys, versions, desks) = (sizes.key_rooms as u64, sizes.version_rooms as u64, sizes.desks as u64);
    unsafe { hb_make(hall_at, hall.len(), desk_at, desk.len(), keys, versions, desks) }
}

pub fn load(dump: &[u8], hall: &mut [u8], desk: &mut [u8], sizes: Sizes) -> HbLoaded {
    let (dump_at, hall_at, desk_at) = (dump.as_ptr(), hall.as_mut_ptr(), desk.as_mut_ptr());
    let (keys, versions, desks) = (sizes.key_rooms as u64, sizes.version_rooms as u64, sizes.desks as u64);
    unsafe { hb_load(dump_at, dump.len(), hall_at, hall.len(), desk_at, desk.len(), keys, versions, desks) }
}

pub fn begin(hall: &mut [u8], desk: &mut [u8]) -> HbBegun {
    unsafe { hb_begin(hall.as_mut_ptr(), hall.len(), desk.as_mut_ptr(), desk.len()) }
}

pub fn read(hall: &[u8], desk: &[u8], start: u64, key: &[u8]) -> HbFound {
    unsafe { hb_read(hall.as_ptr(), hall.len(), desk.as_ptr(), desk.len(), start, key.as_ptr(), key.len()) }
}

pub fn newest(hall: &[u8], key: &[u8]) -> HbFound {
    unsafe { hb_newest(hall.as_ptr(), hall.len(), key.as_ptr(), key.len()) }
}

pub fn as_of(hall: &[u8], number: u64, key: &[u8]) -> HbFound {
    unsafe { hb_as_of(hall.as_ptr(), hall.len(), number, key.as_ptr(), key.len()) }
}

pub fn put(hall: &[u8], desk: &mut [u8], start: u64, key: &[u8], value: &[u8]) -> u64 {
    let (key_at, value_at) = (key.as_ptr(), value.as_ptr());
    let desk_at = desk.as_mut_ptr();
    unsafe { hb_put(hall.as_ptr(), hall.len(), desk_at, desk.len(), start, key_at, key.len(), value_at, value.len()) }
}

pub fn delete(hall: &[u8], desk: &mut [u8], start: u64, key: &[u8]) -> u64 {
    unsafe { hb_delete(hall.as_ptr(), hall.len(), desk.as_mut_ptr(), desk.len(), start, key.as_ptr(), key.len()) }
}

pub fn commit(hall: &mut [u8], desk: &mut [u8], start: u64, list: &mut [u8]) -> HbCommitted {
    let (hall_at, desk_at, list_at) = (hall.as_mut_ptr(), desk.as_mut_ptr(), list.as_mut_ptr());
    unsafe { hb_commit(hall_at, hall.len(), desk_at, desk.len(), start, list_at, list.len()) }
}

pub fn commit_journal(hall: &mut [u8], desk: &mut [u8], start: u64, list: &mut [u8], journal: &mut [u8]) -> HbRecorded {
    let (hall_at, desk_at) = (hall.as_mut_ptr(), desk.as_mut_ptr());
    let (list_at, list_len, to, room) = (list.as_mut_ptr(), list.len(), journal.as_mut_ptr(), journal.len());
    unsafe { hb_commit_journal(hall_at, hall.len(), desk_at, desk.len(), start, list_at, list_len, to, room) }
}

pub fn replay(hall: &mut [u8], desk: &mut [u8], journal: &[u8]) -> HbReplayed {
    let (hall_at, desk_at) = (hall.as_mut_ptr(), desk.as_mut_ptr());
    unsafe { hb_replay(hall_at, hall.len(), desk_at, desk.len(), journal.as_ptr(), journal.len()) }
}

pub fn abort(hall: &[u8], desk: &mut [u8], start: u64) -> u64 {
    unsafe { hb_abort(hall.as_ptr(), hall.len(), desk.as_mut_ptr(), desk.len(), start) }
}

pub fn sweep(hall: &mut [u8], desk: &[u8], limit: u64) -> HbSwept {
    unsafe { hb_sweep(hall.as_mut_ptr(), hall.len(), desk.as_ptr(), desk.len(), limit) }
}

pub fn thin(hall: &mut [u8], desk: &[u8], limit: u64) -> HbThinned {
    unsafe { hb_thin(hall.as_mut_ptr(), hall.len(), desk.as_ptr(), desk.len(), limit) }
}

pub fn batch(hall: &mut [u8], desk: &mut [u8], batch: &[u8], answers: &mut [u8]) -> HbBatched {
    let (hall_at, desk_at) = (hall.as_mut_ptr(), desk.as_mut_ptr());
    let (batch_at, batch_len, to, room) = (batch.as_ptr(), batch.len(), answers.as_mut_ptr(), answers.len());
    unsafe { hb_batch(hall_at, hall.len(), desk_at, desk.len(), batch_at, batch_len, to, room) }
}

pub fn counts(hall: &[u8], desk: &[u8]) -> HbCounted {
    unsafe { hb_counts(hall.as_ptr(), hall.len(), desk.as_ptr(), desk.len()) }
}

pub fn dump(hall: &[u8], out: &mut [u8]) -> HbDumped {
    unsafe { hb_dump(hall.as_ptr(), hall.len(), out.as_mut_ptr(), out.len()) }
}
