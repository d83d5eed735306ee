//! Bytes changed as a fault would change them, and back.

use crate::console::{Console, DESK_LENT, HALL_LENT};
use crate::language::Which;
use crate::layout::{
    desk_length, hall_length, versions_at, DESK_COUNT, DESK_HEADER, DESK_ROW, HALL_DESKS, HALL_HEADER, KEY_CELL,
    KEY_ROW, VERSION_ROW, WRITES,
};
use crate::store::Sizes;

/// Two keys, three versions, of four desks two open, one of them with a write.
const RUN: &str = "make 3 4 4\nbegin\nput 1 4131 07\nput 1 42 -\ncommit 1\nbegin\nput 3 4131 08\ncommit 3\n\
     begin\nput 5 43 01\nbegin\n";
const VERSIONS: usize = versions_at(3);
const NEEDED: usize = hall_length(Sizes::new(3, 4, 4));
const DESK_NEEDED: usize = desk_length(4);

/// A place, a byte that makes the memory unsound there, and why.
type Fault = (usize, u8, &'static str);

const HALL: [Fault; 30] = [
    (0, 2, "fewer key rooms: the rows stand elsewhere"),
    (1, 4, "too many key rooms"),
    (4, 0, "no version room"),
    (8, 3, "a counter below a number"),
    (16, 1, "a key count that leaves a row over"),
    (20, 2, "a version count that leaves a row over"),
    (HALL_DESKS, 0, "no desks"),
    (HALL_DESKS, 65, "too many desks"),
    (HALL_DESKS + 1, 1, "256 desks more"),
    (HALL_DESKS, 5, "a desk more than desk memory has"),
    (HALL_DESKS + 4, 1, "the first spare byte of the header"),
    (63, 1, "the last spare byte of the header"),
    (HALL_HEADER, 0, "a key of no bytes"),
    (HALL_HEADER, 1, "a shorter key, with a byte left over"),
    (HALL_HEADER + 1, b'C', "keys that don't ascend"),
    (HALL_HEADER + 1, b' ', "a space in a key"),
    (HALL_HEADER + 2, 0, "a zero in a key"),
    (HALL_HEADER + 2, 127, "the byte after the last that a key may have"),
    (HALL_HEADER + KEY_CELL - 1, 1, "a byte after a key"),
    (HALL_HEADER + KEY_CELL, 2, "ends that don't ascend"),
    (HALL_HEADER + KEY_CELL, 0, "an older version that is the next key's"),
    (HALL_HEADER + KEY_ROW + KEY_CELL, 2, "a version more than are counted"),
    (VERSIONS - 1, 1, "an unused key row"),
    (VERSIONS, 0, "number 0"),
    (VERSIONS + 2 * VERSION_ROW, 4, "an older version with the newest's number"),
    (VERSIONS + 8, 2, "a tag that is none"),
    (VERSIONS + 8, 0, "a deletion with a value left over"),
    (VERSIONS + 9, 97, "a value too long"),
    (VERSIONS + 14, 1, "a byte after a value"),
    (NEEDED - 1, 1, "the last byte of an unused version row"),
];

const DESKS: [Fault; 18] = [
    (0, 1, "an open desk that is not marked"),
    (0, 7, "a marked desk with start 0"),
    (0, 19, "a mark of a desk that is not there"),
    (DESK_COUNT, 0, "no desks"),
    (DESK_COUNT, 3, "a desk fewer"),
    (DESK_COUNT, 5, "a desk more"),
    (DESK_HEADER, 6, "two desks with one start"),
    (DESK_HEADER, 4, "a start that is a version's number"),
    (DESK_HEADER, 7, "a start above the counter"),
    (DESK_HEADER + 8, 0, "a write that is not counted"),
    (DESK_HEADER + 8, 17, "seventeen writes"),
    (DESK_HEADER + WRITES, 25, "a key too long"),
    (DESK_HEADER + WRITES + 1, b' ', "a space in a write's key"),
    (DESK_HEADER + WRITES + 1, 127, "a byte too high in a write's key"),
    (DESK_HEADER + WRITES + 3, 1, "a byte after a key"),
    (DESK_HEADER + WRITES + KEY_CELL, 3, "a tag that is none"),
    (DESK_HEADER + DESK_ROW + WRITES, 1, "a byte in unused room"),
    (DESK_NEEDED - 1, 1, "the last byte of a free desk"),
];

/// Each fault alone: the byte is changed, counts is asked, the byte is changed back.
fn one_by_one(which: Which, faults: &[Fault]) -> String {
    let mut console = Console::new();
    RUN.lines().for_each(|line| drop(console.answer(line)));
    let (memory, name) = (console.memory(which), which.name());
    let one = |(at, byte, why): &Fault| {
        format!("# {why}\npoke {name} {at} {byte}\ncounts\npoke {name} {at} {}\n", memory[*at])
    };
    faults.iter().map(one).collect()
}

pub fn unsound_hall() -> String {
    format!(
        "# Two keys, three versions, of four desks two open, one of them with a write.\n{RUN}\
         # Hall memory that is not sound: 1, also from newest and dump.\n{}\
         poke hall 63 1\nnewest 4131\ndump 200\nbegin\nread 5 43\nbytes 5 43\npoke hall 63 0\ncounts\nsum hall\nsum desk\n",
        one_by_one(Which::Hall, &HALL)
    )
}

pub fn unsound_desks() -> String {
    format!(
        "# Desk memory that is not sound: only newest and dump, which are lent the hall's alone, answer.\n{}\
         poke desk 0 0\nbegin\nread 5 43\nbytes 5 43\nput 5 43 02\ndelete 5 43\ncommit 5\ncommitj 5 99\nabort 5\nsweep 9\nsweep2 9\nreplay -\nnewest 4131\ndump 200\n\
         sum hall\nsum desk\npoke desk 0 3\nread 5 43\n",
        one_by_one(Which::Desk, &DESKS)
    )
}

/// Changes after which the memories are sound still, or made anew, or that hit no memory.
pub fn of_no_account() -> String {
    let (value, key) = (VERSIONS + 13, DESK_HEADER + WRITES + 1);
    let (hall_last, desk_last) = (HALL_LENT - 1, DESK_LENT - 1);
    format!(
        "# Bytes past the needed lengths are nobody's.\n\
         poke hall {NEEDED} 0\npoke desk {DESK_NEEDED} 0\npoke hall {hall_last} 1\npoke desk {desk_last} 1\ncounts\nsum hall\nsum desk\n\
         # Other sound states: a raised counter, another value, another start, another key.\n\
         poke hall 8 9\npoke hall {value} 99\npoke desk {DESK_HEADER} 7\npoke desk {key} 68\n\
         read 5 44\nread 7 44\nread 7 4131\ncommit 7\ndump 300\nbegin\nsum hall\nsum desk\n\
         # Unsound memory is made anew.\npoke hall 0 0\ncounts\nmake 1 1 1\ncounts\nsum hall\nsum desk\n\
         # Outside the memories.\npeek hall {hall_last} 1\npeek hall {hall_last} 2\npeek desk {desk_last} 1\npeek desk {DESK_LENT} 1\n\
         peek hall 18446744073709551615 1\npoke hall {HALL_LENT} 0\npoke desk {DESK_LENT} 0\npeek hall 0 0\n"
    )
}
