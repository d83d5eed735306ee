//! The store: the proved calls over two lent memories.

use crate::answers::accepted;
use crate::batch::Answers;
use crate::dump::Dump;
use crate::picture::Picture;
use crate::shown::Many;
use crate::view::told;
use crate::{
    clashes, counts_in, raw, starts_in, Begun, Clashes, Commit, Committed, Counted, Found, HallView, Recorded, Refusal,
    Sizes, Start, Stopped, Swept, Transaction,
};
use core::fmt;

/// A store in two lent memories. It is nothing but the two: dropped, it leaves them as they are, and [`Store::open`]
/// takes it up again.
pub struct Store<'m> {
    hall: &'m mut [u8],
    desk: &'m mut [u8],
}

/// The number of a call that answers nothing else.
fn done(refusal: u64) -> Result<(), Refusal> {
    accepted(refusal, ())
}

/// What a commit answers by its number, which is 0 where there were no writes.
fn committed(number: u64) -> Committed {
    match number {
        0 => Committed::Closed,
        _ => Committed::As(Commit::new(number)),
    }
}

/// Why a commit was refused, with the keys in which it clashes.
fn not_committed(refusal: u64, clashes: usize, list: [u8; clashes::LIST_LEN]) -> Refusal {
    match refusal {
        9 => Refusal::Conflict(Clashes::new(clashes, list)),
        _ => Refusal::plain(refusal),
    }
}

/// Whether memory was never written, as far as these bytes of it go.
fn is_blank(memory: &[u8], needed: usize) -> bool {
    memory.iter().take(needed).all(|byte| *byte == 0)
}

impl<'m> Store<'m> {
    /// An empty store of these sizes; what the memories held is gone.
    ///
    /// ```
    /// use hourbracken::{Refusal, Sizes, Store};
    ///
    /// let sizes = Sizes { key_rooms: 4, version_rooms: 8, desks: 2 };
    /// let (mut hall, mut desk) = (vec![0; sizes.hall_len()], vec![0; sizes.desk_len()]);
    /// let larger = Sizes { version_rooms: 9, ..sizes };
    /// assert_eq!(Store::make(&mut hall, &mut desk, larger).err(), Some(Refusal::BadSizes));
    /// assert!(Store::make(&mut hall, &mut desk, sizes).is_ok());
    /// ```
    ///
    /// # Errors
    ///
    /// [`Refusal::BadSizes`].
    pub fn make(hall: &'m mut [u8], desk: &'m mut [u8], sizes: Sizes) -> Result<Store<'m>, Refusal> {
        accepted(raw::make(hall, desk, sizes), Store { hall, desk })
    }

    /// The store that a dump says, in these sizes, with all desks free and the floor at the counter. A dump that is
    /// refused leaves both memories as they were.
    ///
    /// ```
    /// use hourbracken::{Refusal, Sizes, Store};
    ///
    /// let sizes = Sizes { key_rooms: 4, version_rooms: 8, desks: 2 };
    /// let (mut hall, mut desk) = (vec![0; sizes.hall_len()], vec![0; sizes.desk_len()]);
    /// let new = b"DSEMVCC1\x01\0\0\0\0\0\0\0\0\0\0\0";
    /// assert_eq!(Store::load(&new[..19], &mut hall, &mut desk, sizes).err(), Some(Refusal::CutShort { offset: 16 }));
    /// assert!(Store::load(new, &mut hall, &mut desk, sizes).is_ok());
    /// ```
    ///
    /// # Errors
    ///
    /// [`Refusal::BadSizes`], [`Refusal::CutShort`], [`Refusal::Malformed`], [`Refusal::TooBig`].
    pub fn load(dump: &[u8], hall: &'m mut [u8], desk: &'m mut [u8], sizes: Sizes) -> Result<Store<'m>, Refusal> {
        let loaded = raw::load(dump, hall, desk, sizes);
        match loaded.refusal {
            0 => Ok(Store { hall, desk }),
            number => Err(Refusal::at(number, loaded.offset)),
        }
    }

    /// The store that the memories hold already, with its open transactions.
    ///
    /// ```
    /// use hourbracken::{Refusal, Sizes, Store};
    ///
    /// let sizes = Sizes { key_rooms: 4, version_rooms: 8, desks: 2 };
    /// let (mut hall, mut desk) = (vec![0; sizes.hall_len()], vec![0; sizes.desk_len()]);
    /// assert_eq!(Store::open(&mut hall, &mut desk).err(), Some(Refusal::Unsound));
    /// let start = Store::make(&mut hall, &mut desk, sizes)?.begin()?.start;
    /// let mut store = Store::open(&mut hall, &mut desk)?;
    /// store.put(start, b"A1", b"loop")?;
    /// # Ok::<(), Refusal>(())
    /// ```
    ///
    /// # Errors
    ///
    /// [`Refusal::Unsound`].
    pub fn open(hall: &'m mut [u8], desk: &'m mut [u8]) -> Result<Store<'m>, Refusal> {
        counts_in(hall, desk)?;
        Ok(Store { hall, desk })
    }

    /// The store that the memories hold already, whatever its sizes; an empty one of these sizes where both memories
    /// are blank, all zeros. Other memory is damaged, and nothing is written over it: [`Store::make`] does that.
    ///
    /// ```
    /// use hourbracken::{Refusal, Sizes, Store};
    ///
    /// const SIZES: Sizes = Sizes { key_rooms: 4, version_rooms: 8, desks: 2 };
    ///
    /// fn ours<'m>(hall: &'m mut [u8], desk: &'m mut [u8]) -> Result<Store<'m>, Refusal> {
    ///     Store::open_or_make(hall, desk, SIZES)
    /// }
    ///
    /// let (mut hall, mut desk) = ([0; SIZES.hall_len()], [0; SIZES.desk_len()]);
    /// let start = ours(&mut hall, &mut desk)?.begin()?.start; // made
    /// ours(&mut hall, &mut desk)?.put(start, b"A1", b"loop")?; // opened
    /// hall[4] = 9;
    /// assert_eq!(ours(&mut hall, &mut desk).err(), Some(Refusal::Unsound));
    /// # Ok::<(), Refusal>(())
    /// ```
    ///
    /// # Errors
    ///
    /// [`Refusal::Unsound`]; [`Refusal::BadSizes`] where the memories are blank.
    pub fn open_or_make(hall: &'m mut [u8], desk: &'m mut [u8], sizes: Sizes) -> Result<Store<'m>, Refusal> {
        match counts_in(hall, desk) {
            Ok(_) => Ok(Store { hall, desk }),
            Err(_) if is_blank(hall, sizes.hall_len()) && is_blank(desk, sizes.desk_len()) => {
                Store::make(hall, desk, sizes)
            }
            Err(refusal) => Err(refusal),
        }
    }

    /// Opens a transaction at the lowest free desk.
    ///
    /// ```
    /// # use hourbracken::{Refusal, Sizes, Store};
    /// # let sizes = Sizes { key_rooms: 4, version_rooms: 8, desks: 2 };
    /// # let (mut hall, mut desk) = (vec![0; sizes.hall_len()], vec![0; sizes.desk_len()]);
    /// # let mut store = Store::make(&mut hall, &mut desk, sizes)?;
    /// let begun = store.begin()?;
    /// assert_eq!((begun.start.number(), begun.desk), (1, 0));
    /// # Ok::<(), Refusal>(())
    /// ```
    ///
    /// An answer that is let fall is a warning, since nothing else names the desk:
    ///
    /// ```compile_fail
    /// # #![deny(unused_must_use)]
    /// # use hourbracken::{Refusal, Sizes, Store};
    /// # let sizes = Sizes { key_rooms: 4, version_rooms: 8, desks: 2 };
    /// # let (mut hall, mut desk) = (vec![0; sizes.hall_len()], vec![0; sizes.desk_len()]);
    /// # let mut store = Store::make(&mut hall, &mut desk, sizes)?;
    /// store.begin()?;
    /// # Ok::<(), Refusal>(())
    /// ```
    ///
    /// # Errors
    ///
    /// [`Refusal::Unsound`], [`Refusal::DesksTaken`], [`Refusal::Spent`].
    pub fn begin(&mut self) -> Result<Begun, Refusal> {
        let begun = raw::begin(self.hall, self.desk);
        accepted(begun.refusal, Begun { start: Start::from_number(begun.start), desk: begun.desk })
    }

    /// Opens a transaction that is aborted when it is dropped.
    ///
    /// ```
    /// # use hourbracken::{Refusal, Sizes, Store};
    /// # let sizes = Sizes { key_rooms: 4, version_rooms: 8, desks: 2 };
    /// # let (mut hall, mut desk) = (vec![0; sizes.hall_len()], vec![0; sizes.desk_len()]);
    /// # let mut store = Store::make(&mut hall, &mut desk, sizes)?;
    /// let mut transaction = store.transaction()?;
    /// transaction.put(b"A1", b"loop")?;
    /// drop(transaction);
    /// assert_eq!(store.counts()?.desks, 0);
    /// # Ok::<(), Refusal>(())
    /// ```
    ///
    /// # Errors
    ///
    /// [`Refusal::Unsound`], [`Refusal::DesksTaken`], [`Refusal::Spent`].
    pub fn transaction(&mut self) -> Result<Transaction<'_, 'm>, Refusal> {
        let start = self.begin()?.start;
        Ok(Transaction::new(self, start))
    }

    /// What the transaction reads: its own write of the key, else the newest version at or below its start.
    ///
    /// ```
    /// # use hourbracken::{Found, Refusal, Sizes, Store};
    /// # let sizes = Sizes { key_rooms: 4, version_rooms: 8, desks: 2 };
    /// # let (mut hall, mut desk) = (vec![0; sizes.hall_len()], vec![0; sizes.desk_len()]);
    /// # let mut store = Store::make(&mut hall, &mut desk, sizes)?;
    /// let start = store.begin()?.start;
    /// assert_eq!(store.read(start, b"A1")?, Found::Nothing);
    /// store.put(start, b"A1", b"loop")?;
    /// assert_eq!(store.read(start, b"A1")?, Found::Own(b"loop"));
    /// # Ok::<(), Refusal>(())
    /// ```
    ///
    /// The bytes are a part of the store, so they cannot outlive its next change:
    ///
    /// ```compile_fail,E0502
    /// # use hourbracken::{Refusal, Sizes, Store};
    /// # let sizes = Sizes { key_rooms: 4, version_rooms: 8, desks: 2 };
    /// # let (mut hall, mut desk) = (vec![0; sizes.hall_len()], vec![0; sizes.desk_len()]);
    /// # let mut store = Store::make(&mut hall, &mut desk, sizes)?;
    /// # let start = store.begin()?.start;
    /// let found = store.read(start, b"A1")?;
    /// store.put(start, b"A1", b"direct")?;
    /// println!("{:?}", found);
    /// # Ok::<(), Refusal>(())
    /// ```
    ///
    /// # Errors
    ///
    /// [`Refusal::Unsound`], [`Refusal::BadKey`], [`Refusal::NotOpen`].
    pub fn read(&self, start: Start, key: &[u8]) -> Result<Found<'_>, Refusal> {
        let found = raw::read(self.hall, self.desk, start.number(), key);
        told(&found, self.hall, self.desk)
    }

    /// The key's newest version, outside any transaction.
    ///
    /// ```
    /// # use hourbracken::{Found, Refusal, Sizes, Store};
    /// # let sizes = Sizes { key_rooms: 4, version_rooms: 8, desks: 2 };
    /// # let (mut hall, mut desk) = (vec![0; sizes.hall_len()], vec![0; sizes.desk_len()]);
    /// # let mut store = Store::make(&mut hall, &mut desk, sizes)?;
    /// let start = store.begin()?.start;
    /// store.put(start, b"A1", b"loop")?;
    /// assert_eq!(store.newest(b"A1")?, Found::Nothing);
    /// store.commit(start)?;
    /// assert_eq!(store.newest(b"A1")?.bytes(), Some(&b"loop"[..]));
    /// # Ok::<(), Refusal>(())
    /// ```
    ///
    /// # Errors
    ///
    /// [`Refusal::Unsound`], [`Refusal::BadKey`].
    pub fn newest(&self, key: &[u8]) -> Result<Found<'_>, Refusal> {
        self.view().newest(key)
    }

    /// The version that the key had at a number, outside any transaction: what one that began then reads. So front of
    /// house learns which feed a seat had at last Tuesday's matinee.
    ///
    /// Numbers from the floor to the counter are answered. The floor is 0 in a new store and the counter after a load;
    /// [`Store::sweep`] and [`Store::thin`] raise it.
    ///
    /// ```
    /// # use hourbracken::{Found, Refusal, Sizes, Store};
    /// # let sizes = Sizes { key_rooms: 4, version_rooms: 8, desks: 2 };
    /// # let (mut hall, mut desk) = (vec![0; sizes.hall_len()], vec![0; sizes.desk_len()]);
    /// # let mut store = Store::make(&mut hall, &mut desk, sizes)?;
    /// let mut numbers = Vec::new(); // of each show's plan, for the log
    /// for feed in [&b"loop"[..], b"direct"] {
    ///     let mut plan = store.transaction()?;
    ///     plan.put(b"A1", feed)?;
    ///     numbers.extend(plan.commit()?.number());
    /// }
    /// let (matinee, evening) = (numbers[0], numbers[1]);
    /// assert_eq!(store.as_of(matinee, b"A1")?, Found::Hall(b"loop"));
    /// assert_eq!(store.as_of(matinee - 1, b"A1")?, Found::Nothing);
    ///
    /// store.sweep(evening)?;
    /// assert_eq!(store.as_of(matinee, b"A1"), Err(Refusal::OutOfReach));
    /// assert_eq!(store.as_of(evening, b"A1")?, Found::Hall(b"direct"));
    /// # Ok::<(), Refusal>(())
    /// ```
    ///
    /// # Errors
    ///
    /// [`Refusal::Unsound`], [`Refusal::BadKey`], [`Refusal::OutOfReach`].
    pub fn as_of(&self, number: u64, key: &[u8]) -> Result<Found<'_>, Refusal> {
        self.view().as_of(number, key)
    }

    /// Writes into the transaction's desk; nobody else sees it before the commit. A later write of the key replaces it.
    ///
    /// ```
    /// # use hourbracken::{Refusal, Sizes, Store};
    /// # let sizes = Sizes { key_rooms: 4, version_rooms: 8, desks: 2 };
    /// # let (mut hall, mut desk) = (vec![0; sizes.hall_len()], vec![0; sizes.desk_len()]);
    /// # let mut store = Store::make(&mut hall, &mut desk, sizes)?;
    /// let start = store.begin()?.start;
    /// store.put(start, b"A1", b"loop")?;
    /// assert_eq!(store.put(start, b"", b"loop"), Err(Refusal::BadKey));
    /// # Ok::<(), Refusal>(())
    /// ```
    ///
    /// # Errors
    ///
    /// [`Refusal::Unsound`], [`Refusal::BadKey`], [`Refusal::LongValue`], [`Refusal::NotOpen`],
    /// [`Refusal::TooManyWrites`].
    pub fn put(&mut self, start: Start, key: &[u8], value: &[u8]) -> Result<(), Refusal> {
        done(raw::put(self.hall, self.desk, start.number(), key, value))
    }

    /// Writes a deletion, which is a write as any other.
    ///
    /// ```
    /// # use hourbracken::{Found, Refusal, Sizes, Store};
    /// # let sizes = Sizes { key_rooms: 4, version_rooms: 8, desks: 2 };
    /// # let (mut hall, mut desk) = (vec![0; sizes.hall_len()], vec![0; sizes.desk_len()]);
    /// # let mut store = Store::make(&mut hall, &mut desk, sizes)?;
    /// let start = store.begin()?.start;
    /// store.put(start, b"A1", b"loop")?;
    /// store.delete(start, b"A1")?;
    /// assert_eq!(store.read(start, b"A1")?, Found::Nothing);
    /// # Ok::<(), Refusal>(())
    /// ```
    ///
    /// # Errors
    ///
    /// [`Refusal::Unsound`], [`Refusal::BadKey`], [`Refusal::NotOpen`], [`Refusal::TooManyWrites`].
    pub fn delete(&mut self, start: Start, key: &[u8]) -> Result<(), Refusal> {
        done(raw::delete(self.hall, self.desk, start.number(), key))
    }

    /// Publishes the transaction's writes under one new number and closes it.
    ///
    /// ```
    /// # use hourbracken::{Committed, Refusal, Sizes, Store};
    /// # let sizes = Sizes { key_rooms: 4, version_rooms: 8, desks: 2 };
    /// # let (mut hall, mut desk) = (vec![0; sizes.hall_len()], vec![0; sizes.desk_len()]);
    /// # let mut store = Store::make(&mut hall, &mut desk, sizes)?;
    /// let start = store.begin()?.start;
    /// assert_eq!(store.commit(start)?, Committed::Closed);
    /// assert_eq!(store.commit(start), Err(Refusal::NotOpen));
    /// # Ok::<(), Refusal>(())
    /// ```
    ///
    /// # Errors
    ///
    /// [`Refusal::Unsound`], [`Refusal::NotOpen`], [`Refusal::Conflict`], [`Refusal::Spent`], [`Refusal::NoKeyRoom`],
    /// [`Refusal::NoVersionRoom`]. After a conflict the transaction is closed; after the last three it is still open.
    pub fn commit(&mut self, start: Start) -> Result<Committed, Refusal> {
        let mut list = [0; clashes::LIST_LEN];
        let answer = raw::commit(self.hall, self.desk, start.number(), &mut list);
        match answer.refusal {
            0 => Ok(committed(answer.number)),
            refusal => Err(not_committed(refusal, answer.clashes, list)),
        }
    }

    /// As [`Store::commit`], and writes the commit's record over the front of the output, for a journal: append it to a
    /// file, and tell of the commit once it is there to stay. [`RECORD_LEN`](crate::RECORD_LEN) bytes have room for any
    /// record. [`Store::replay`] does the commits of a journal again.
    ///
    /// ```
    /// # use hourbracken::{Sizes, Store};
    /// use hourbracken::{Recorded, RECORD_LEN};
    ///
    /// # let sizes = Sizes { key_rooms: 4, version_rooms: 8, desks: 2 };
    /// # let (mut hall, mut desk) = (vec![0; sizes.hall_len()], vec![0; sizes.desk_len()]);
    /// # let mut store = Store::make(&mut hall, &mut desk, sizes)?;
    /// # let mut file = Vec::new();
    /// # use std::io::Write as _;
    /// let start = store.begin()?.start;
    /// store.put(start, b"A1", b"loop")?;
    /// let mut out = [0; RECORD_LEN];
    /// let Recorded { committed, record } = store.commit_to(start, &mut out)?;
    /// file.write_all(record)?; // then sync it
    /// println!("saved as {:?}", committed.number());
    /// # assert_eq!((committed.number(), file.len()), (Some(2), 18 + 4 + 2 + 1 + 4 + 4));
    /// # Ok::<(), Box<dyn std::error::Error>>(())
    /// ```
    ///
    /// # Errors
    ///
    /// Those of [`Store::commit`], then [`Refusal::ShortOutput`], after which the transaction is still open. A refused
    /// commit leaves the output as it was.
    pub fn commit_to<'j>(&mut self, start: Start, out: &'j mut [u8]) -> Result<Recorded<'j>, Refusal> {
        let mut list = [0; clashes::LIST_LEN];
        let answer = raw::commit_journal(self.hall, self.desk, start.number(), &mut list, out);
        let record = out.get(..answer.len).unwrap_or_default();
        match answer.refusal {
            0 => Ok(Recorded { committed: committed(answer.number), record }),
            refusal => Err(not_committed(refusal, answer.clashes, list)),
        }
    }

    /// Does the commits of a journal again, which is records of [`Store::commit_to`] one after the other: most often
    /// over a store just loaded from the dump that the journal goes on from.
    ///
    /// Answers where the whole records end. That is the journal's length, or where a record starts that is cut off; cut
    /// the file there before you go on with it. Sweeps are not in a journal, and the floor stays: after a load
    /// [`Store::as_of`] answers from the dump's counter on.
    ///
    /// ```
    /// # use hourbracken::{Found, Refusal, Sizes, Store, RECORD_LEN};
    /// # let sizes = Sizes { key_rooms: 4, version_rooms: 8, desks: 2 };
    /// # let (mut hall, mut desk) = (vec![0; sizes.hall_len()], vec![0; sizes.desk_len()]);
    /// # let (mut dump, mut out) = (vec![0; sizes.dump_len()], [0; RECORD_LEN]);
    /// # let mut store = Store::make(&mut hall, &mut desk, sizes)?;
    /// # let length = store.dump(&mut dump)?;
    /// # dump.truncate(length);
    /// # let mut journal = Vec::new();
    /// # for feed in [b"loop", b"line"] {
    /// #     let mut plan = store.transaction()?;
    /// #     plan.put(b"A1", feed)?;
    /// #     journal.extend(plan.commit_to(&mut out)?.record);
    /// # }
    /// # journal.pop();
    /// // the second record was not all written when power failed
    /// let mut store = Store::load(&dump, &mut hall, &mut desk, sizes)?;
    /// let whole = store.replay(&journal)?;
    /// journal.truncate(whole);
    /// assert_eq!(store.newest(b"A1")?, Found::Hall(b"loop"));
    ///
    /// let stopped = store.replay(&journal).unwrap_err(); // its numbers are not above the counter any more
    /// assert_eq!((stopped.refusal.number(), stopped.offset), (14, 0));
    /// # Ok::<(), Refusal>(())
    /// ```
    ///
    /// # Errors
    ///
    /// [`Refusal::Unsound`], [`Refusal::DesksOpen`]; then for each record [`Refusal::Malformed`],
    /// [`Refusal::NoKeyRoom`], [`Refusal::NoVersionRoom`]. Those before it stand: [`Stopped`] says how far it came.
    pub fn replay(&mut self, journal: &[u8]) -> Result<usize, Stopped> {
        let answer = raw::replay(self.hall, self.desk, journal);
        match answer.refusal {
            0 => Ok(answer.offset),
            number => Err(Stopped { refusal: Refusal::at(number, answer.offset), offset: answer.offset }),
        }
    }

    /// Closes the transaction; its writes are gone.
    ///
    /// ```
    /// # use hourbracken::{Refusal, Sizes, Store};
    /// # let sizes = Sizes { key_rooms: 4, version_rooms: 8, desks: 2 };
    /// # let (mut hall, mut desk) = (vec![0; sizes.hall_len()], vec![0; sizes.desk_len()]);
    /// # let mut store = Store::make(&mut hall, &mut desk, sizes)?;
    /// let start = store.begin()?.start;
    /// store.abort(start)?;
    /// assert_eq!(store.abort(start), Err(Refusal::NotOpen));
    /// # Ok::<(), Refusal>(())
    /// ```
    ///
    /// # Errors
    ///
    /// [`Refusal::Unsound`], [`Refusal::NotOpen`].
    pub fn abort(&mut self, start: Start) -> Result<(), Refusal> {
        done(raw::abort(self.hall, self.desk, start.number()))
    }

    /// Drops the versions that nobody can read any more who began at the cutoff or later, which is the smallest of
    /// limit, counter and open starts. A seat that was deleted goes whole, and its key room is free. [`Store::as_of`]
    /// then answers from the cutoff on. Where a transaction was left open, [`Store::thin`] drops more.
    ///
    /// ```
    /// # use hourbracken::{Refusal, Sizes, Store};
    /// # let sizes = Sizes { key_rooms: 4, version_rooms: 8, desks: 2 };
    /// # let (mut hall, mut desk) = (vec![0; sizes.hall_len()], vec![0; sizes.desk_len()]);
    /// # let mut store = Store::make(&mut hall, &mut desk, sizes)?;
    /// for feed in [b"loop", b"line"] {
    ///     let start = store.begin()?.start;
    ///     store.put(start, b"A1", feed)?;
    ///     store.commit(start)?;
    /// }
    /// let swept = store.sweep(u64::MAX)?;
    /// assert_eq!((swept.cutoff, swept.dropped), (4, 1));
    /// # Ok::<(), Refusal>(())
    /// ```
    ///
    /// # Errors
    ///
    /// [`Refusal::Unsound`].
    pub fn sweep(&mut self, limit: u64) -> Result<Swept, Refusal> {
        let swept = raw::sweep(self.hall, self.desk, limit);
        accepted(swept.refusal, Swept { cutoff: swept.cutoff, dropped: swept.dropped })
    }

    /// Drops also the versions between the open transactions, where [`Store::sweep`] keeps all since the oldest, and
    /// answers how many are gone. With the limit [`u64::MAX`] no key is left more versions than there are open
    /// transactions, and one.
    ///
    /// Each open transaction reads what it read before. [`Store::as_of`] answers from the limit on, or from the counter
    /// if that is smaller, whatever is open.
    ///
    /// ```
    /// # use hourbracken::{Found, Refusal, Sizes, Store};
    /// # let sizes = Sizes { key_rooms: 4, version_rooms: 8, desks: 2 };
    /// # let (mut hall, mut desk) = (vec![0; sizes.hall_len()], vec![0; sizes.desk_len()]);
    /// # let mut store = Store::make(&mut hall, &mut desk, sizes)?;
    /// # let mut save = |store: &mut Store, feed: &[u8]| -> Result<(), Refusal> {
    /// #     let mut plan = store.transaction()?;
    /// #     plan.put(b"A1", feed)?;
    /// #     plan.commit().map(|_| ())
    /// # };
    /// save(&mut store, b"loop")?;
    /// let forgotten = store.begin()?.start;
    /// for feed in [b"line", b"mono", b"feed"] {
    ///     save(&mut store, feed)?;
    /// }
    /// assert_eq!(store.sweep(u64::MAX)?.dropped, 0);
    /// assert_eq!(store.thin(u64::MAX)?, 2);
    /// assert_eq!(store.read(forgotten, b"A1")?, Found::Hall(b"loop"));
    /// assert_eq!(store.newest(b"A1")?, Found::Hall(b"feed"));
    /// # Ok::<(), Refusal>(())
    /// ```
    ///
    /// # Errors
    ///
    /// [`Refusal::Unsound`].
    pub fn thin(&mut self, limit: u64) -> Result<u64, Refusal> {
        let thinned = raw::thin(self.hall, self.desk, limit);
        accepted(thinned.refusal, thinned.dropped)
    }

    /// Does the calls of a batch, each as if it were made singly: a [`Batch`](crate::batch::Batch), or the bytes of one.
    /// The memories are tested once for all, and that is nearly all that a call costs. A call that is refused is answered
    /// so, and the next is done.
    ///
    /// The answers go over the front of the output. [`Batch::answers_len`](crate::batch::Batch::answers_len) says what
    /// they take, of bytes [`batch::answers_len`](crate::batch::answers_len).
    ///
    /// ```
    /// # use hourbracken::{Refusal, Sizes, Store};
    /// use hourbracken::batch::{answers_len, Batch};
    ///
    /// # let sizes = Sizes { key_rooms: 4, version_rooms: 8, desks: 2 };
    /// # let (mut hall, mut desk) = (vec![0; sizes.hall_len()], vec![0; sizes.desk_len()]);
    /// # let mut store = Store::make(&mut hall, &mut desk, sizes)?;
    /// # let mut room = [0; 64];
    /// let mut batch = Batch::new(&mut room);
    /// let night = batch.begin()?;
    /// batch.put(night, b"A1", b"loop")?;
    /// batch.commit(night)?;
    /// let mut out = vec![0; batch.answers_len()];
    /// let answers = store.batch(&batch, &mut out)?;
    /// assert_eq!((answers.len(), answers.begun(night)?.desk), (3, 0));
    ///
    /// let night = batch.as_bytes().to_vec(); // to do it again, elsewhere or another night
    /// let mut out = vec![0; answers_len(&night)];
    /// assert!(store.batch(&night, &mut out)?.iter().all(|answer| answer.refusal().is_none()));
    ///
    /// let cut = store.batch(&night[..9], &mut out);
    /// assert_eq!(cut.err(), Some(Refusal::MalformedBatch { offset: 2 })); // in its second record, and nothing was done
    /// # Ok::<(), Box<dyn std::error::Error>>(())
    /// ```
    ///
    /// # Errors
    ///
    /// [`Refusal::Unsound`]; [`Refusal::MalformedBatch`] or [`Refusal::ReservedKind`], whichever record stands first, and
    /// a batch that is built has none such; [`Refusal::ShortOutput`]. Nothing is done then, and the output is as it was.
    pub fn batch<'a, B>(&mut self, batch: &'a B, out: &'a mut [u8]) -> Result<Answers<'a>, Refusal>
    where
        B: AsRef<[u8]> + ?Sized,
    {
        let batch = batch.as_ref();
        let answer = raw::batch(self.hall, self.desk, batch, out);
        match answer.refusal {
            0 => Answers::read(batch, out.get(..answer.len).unwrap_or_default()).ok_or(Refusal::ShortOutput),
            number => Err(Refusal::at(number, answer.offset)),
        }
    }

    /// How much the store holds.
    ///
    /// ```
    /// # use hourbracken::{Refusal, Sizes, Store};
    /// # let sizes = Sizes { key_rooms: 4, version_rooms: 8, desks: 2 };
    /// # let (mut hall, mut desk) = (vec![0; sizes.hall_len()], vec![0; sizes.desk_len()]);
    /// # let mut store = Store::make(&mut hall, &mut desk, sizes)?;
    /// let begun = store.begin()?;
    /// let held = store.counts()?;
    /// assert_eq!((held.keys, held.versions, held.desks), (0, 0, 1));
    /// # Ok::<(), Refusal>(())
    /// ```
    ///
    /// # Errors
    ///
    /// [`Refusal::Unsound`].
    pub fn counts(&self) -> Result<Counted, Refusal> {
        counts_in(self.hall, self.desk)
    }

    /// The starts of the open transactions, in the order of their desks.
    ///
    /// ```
    /// # use hourbracken::{Refusal, Sizes, Store};
    /// # let sizes = Sizes { key_rooms: 4, version_rooms: 8, desks: 2 };
    /// # let (mut hall, mut desk) = (vec![0; sizes.hall_len()], vec![0; sizes.desk_len()]);
    /// # let mut store = Store::make(&mut hall, &mut desk, sizes)?;
    /// let (anna, bram) = (store.begin()?.start, store.begin()?.start);
    /// store.abort(anna)?;
    /// let chris = store.begin()?.start;
    /// assert!(store.desks()?.eq([chris, bram]));
    /// # Ok::<(), Refusal>(())
    /// ```
    ///
    /// # Errors
    ///
    /// [`Refusal::Unsound`].
    pub fn desks(&self) -> Result<impl Iterator<Item = Start> + Clone + '_, Refusal> {
        self.counts()?;
        Ok(starts_in(self.desk))
    }

    /// A picture of the store with its open transactions. The room is for the dump that it is drawn by, and that is
    /// within [`Sizes::dump_len`].
    ///
    /// ```
    /// # use hourbracken::{Refusal, Sizes, Store};
    /// # let sizes = Sizes { key_rooms: 4, version_rooms: 8, desks: 2 };
    /// # let (mut hall, mut desk) = (vec![0; sizes.hall_len()], vec![0; sizes.desk_len()]);
    /// # let mut store = Store::make(&mut hall, &mut desk, sizes)?;
    /// let start = store.begin()?.start;
    /// let mut room = vec![0; sizes.dump_len()];
    /// let svg = store.picture(&mut room)?.title("Hall 3").to_string();
    /// assert!(svg.contains(&format!("start {start}")));
    /// # Ok::<(), Refusal>(())
    /// ```
    ///
    /// # Errors
    ///
    /// [`Refusal::Unsound`], [`Refusal::ShortOutput`].
    pub fn picture<'p>(&'p self, room: &'p mut [u8]) -> Result<Picture<'p>, Refusal> {
        self.counts()?;
        let length = self.dump(room)?;
        let dump = Dump::read(room.get(..length).unwrap_or(&[])).map_err(|fault| fault.refusal())?;
        Ok(Picture::new(dump).desks(self.desk))
    }

    /// Writes the dump over the front of the output, and answers how many bytes it has. Open transactions are not in
    /// it.
    ///
    /// ```
    /// # use hourbracken::{Refusal, Sizes, Store};
    /// # let sizes = Sizes { key_rooms: 4, version_rooms: 8, desks: 2 };
    /// # let (mut hall, mut desk) = (vec![0; sizes.hall_len()], vec![0; sizes.desk_len()]);
    /// # let mut store = Store::make(&mut hall, &mut desk, sizes)?;
    /// let mut out = [0; 20];
    /// assert_eq!(store.dump(&mut out[..19]), Err(Refusal::ShortOutput));
    /// assert_eq!(store.dump(&mut out)?, 20);
    /// assert_eq!(&out, b"DSEMVCC1\x01\0\0\0\0\0\0\0\0\0\0\0");
    /// # Ok::<(), Refusal>(())
    /// ```
    ///
    /// # Errors
    ///
    /// [`Refusal::Unsound`], [`Refusal::ShortOutput`].
    pub fn dump(&self, out: &mut [u8]) -> Result<usize, Refusal> {
        self.view().dump(out)
    }

    /// Hall memory, only looked at.
    #[must_use]
    pub const fn view(&self) -> HallView<'_> {
        HallView::new(self.hall)
    }

    /// Hall memory, as to write it down: the same state has the same bytes.
    ///
    /// ```
    /// # use hourbracken::{Refusal, Sizes, Store};
    /// # let sizes = Sizes { key_rooms: 4, version_rooms: 8, desks: 2 };
    /// # let (mut hall, mut desk) = (vec![0; sizes.hall_len()], vec![0; sizes.desk_len()]);
    /// # let store = Store::make(&mut hall, &mut desk, sizes)?;
    /// assert_eq!(store.hall().len(), sizes.hall_len());
    /// # Ok::<(), Refusal>(())
    /// ```
    #[must_use]
    pub fn hall(&self) -> &[u8] {
        self.hall
    }

    /// Desk memory, likewise.
    ///
    /// ```
    /// # use hourbracken::{Refusal, Sizes, Store};
    /// # let sizes = Sizes { key_rooms: 4, version_rooms: 8, desks: 2 };
    /// # let (mut hall, mut desk) = (vec![0; sizes.hall_len()], vec![0; sizes.desk_len()]);
    /// # let store = Store::make(&mut hall, &mut desk, sizes)?;
    /// assert!(store.desk()[..8].iter().all(|byte| *byte == 0)); // nobody is at a desk
    /// # Ok::<(), Refusal>(())
    /// ```
    #[must_use]
    pub fn desk(&self) -> &[u8] {
        self.desk
    }
}

/// What it holds, not its bytes.
impl fmt::Debug for Store<'_> {
    fn fmt(&self, f: &mut fmt::Formatter<'_>) -> fmt::Result {
        match self.counts() {
            Ok(held) => {
                let (keys, versions) = (Many(held.keys, "key"), Many(held.versions, "version"));
                write!(f, "Store({keys}, {versions}, {} open)", held.desks)
            }
            Err(refusal) => write!(f, "Store({refusal})"),
        }
    }
}
