//! A hall in use, drawn: `cargo run --example hall_picture > hall.svg`.

use hourbracken::{Sizes, Store};

const SIZES: Sizes = Sizes { key_rooms: 8, version_rooms: 64, desks: 4 };

fn main() -> Result<(), Box<dyn std::error::Error>> {
    let (mut hall, mut desk) = ([0; SIZES.hall_len()], [0; SIZES.desk_len()]);
    let mut store = Store::open_or_make(&mut hall, &mut desk, SIZES)?;

    // three shows; after the first a technician begins and is still at the desk
    for feed in [b"loop", b"line", b"mono"] {
        for row in [&[b"A1", b"A2"], &[b"A3", b"A4"], &[b"B1", b"B2"]] {
            let mut transaction = store.transaction()?;
            transaction.put(row[0], feed)?;
            if feed == b"line" {
                transaction.delete(row[1])?;
            }
            transaction.commit()?;
        }
        if store.desks()?.next().is_none() {
            let _technician = store.begin()?;
        }
    }
    let floor = store.sweep(u64::MAX)?.cutoff;

    let mut room = [0; SIZES.dump_len()];
    print!("{}", store.picture(&mut room)?.title("A hall in use").floor(floor));
    Ok(())
}
