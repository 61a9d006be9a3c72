//! The history of rights, apart from the agent, and read off a table.

mod common;

use common::{
    about, fourth, frame_bytes, lending, mixed_table, returning, right, setup, uncounted, OwnFields,
};
use reference::ledger::{agrees, Ledger, Right, Setup, Standing};
use reference::{read_request, Count, ReadRequest, SLOT_BYTES};

/// The ledger of requests with their statuses.
fn ledger_of(history: &[(u8, OwnFields, u8)]) -> Ledger {
    let frames: Vec<Vec<u8>> = history
        .iter()
        .map(|(kind, fields, _)| frame_bytes(*kind, fields))
        .collect();
    Ledger::of(frames.iter().zip(history).map(|(frame, (_, _, status))| {
        let ReadRequest::Request(request) = read_request(frame) else {
            panic!("{frame:02x?} is a request");
        };
        (request, *status)
    }))
}

/// A right that was installed with these fields.
fn as_installed(fields: &OwnFields) -> Right {
    Right {
        standing: Standing::ForUse,
        handle: fields.handle,
        key: fields.key,
        count: fields.count,
        hashes: fields.hashes.clone(),
        payload: fields.payload.clone(),
    }
}

/// The history that leads to the mixed table.
fn mixed_history() -> Vec<(u8, OwnFields, u8)> {
    vec![
        (1, setup(1, 40), 0),
        (1, setup(2, 7), 0),
        (1, setup(3, 4096), 0),
        (1, setup(0, 3), 0),
        (1, setup(4, 9), 0),
        (2, right(1, 2, 33), 0),
        (2, right(3, 8, 4096), 0),
        (2, uncounted(fourth()), 0),
        (4, lending(3, 5), 0),
        (7, about(0), 0),
    ]
}

#[test]
fn setups_open_and_close() {
    let mut history = vec![(1, setup(1, 5), 0), (1, setup(2, 6), 0)];
    let open = |handle, length| Setup {
        handle: [handle; 10],
        length,
    };
    assert_eq!(ledger_of(&history).setups(), [open(1, 5), open(2, 6)]);
    history.push((7, about(1), 0));
    assert_eq!(ledger_of(&history).setups(), [open(2, 6)]);
    history.push((2, right(2, 1, 3), 0));
    let ledger = ledger_of(&history);
    assert!(ledger.setups().is_empty());
    assert_eq!(ledger.rights(), [as_installed(&right(2, 1, 3))]);
}

#[test]
fn a_right_is_lent_returned_and_gone() {
    use Count::{Kept, NotKept};
    let fields = right(1, 2, 7);
    let mut history = vec![(1, setup(1, 9), 0), (2, fields.clone(), 0)];
    let mut expected = as_installed(&fields);
    let steps = [
        (
            5,
            returning(1, Kept(77)),
            Standing::ForUse,
            1,
            expected.count,
        ),
        (3, lending(1, 2), Standing::Lent, 2, expected.count),
        (5, returning(2, Kept(40)), Standing::ForUse, 2, Kept(40)),
        (5, returning(2, Kept(41)), Standing::ForUse, 2, Kept(40)),
        (5, returning(2, NotKept), Standing::ForUse, 2, Kept(40)),
        (4, lending(2, 0), Standing::Lent, 0, Kept(40)),
        (8, OwnFields::default(), Standing::Lent, 0, Kept(40)),
        (9, about(0), Standing::Lent, 0, Kept(40)),
        (5, returning(0, Kept(0)), Standing::ForUse, 0, Kept(0)),
        (3, lending(0, 3), Standing::Lent, 3, Kept(0)),
        (5, returning(3, NotKept), Standing::ForUse, 3, NotKept),
        (5, returning(3, Kept(0)), Standing::ForUse, 3, NotKept),
        (4, lending(3, 4), Standing::Lent, 4, NotKept),
        (5, returning(4, Kept(5)), Standing::ForUse, 4, Kept(5)),
        (6, about(4), Standing::Gone, 4, Kept(5)),
    ];
    for (kind, fields, standing, handle, count) in steps {
        history.push((kind, fields, 0));
        expected.standing = standing;
        expected.handle = [handle; 10];
        expected.count = count;
        assert_eq!(ledger_of(&history).rights(), [expected.clone()]);
    }
}

#[test]
fn any_status_but_0_tells_nothing() {
    let whole = ledger_of(&mixed_history());
    for (kind, fields, _) in mixed_history() {
        for status in 1..=255 {
            let mut history = mixed_history();
            history.push((kind, fields.clone(), status));
            assert_eq!(ledger_of(&history), whole, "kind {kind}, status {status}");
        }
    }
}

#[test]
fn two_installations_with_equal_bytes_are_two_rights() {
    let fields = right(1, 1, 5);
    let once = [
        (1, setup(1, 5), 0),
        (2, fields.clone(), 0),
        (6, about(1), 0),
    ];
    let ledger = ledger_of(&[&once[..], &once[..2]].concat());
    let mut gone = as_installed(&fields);
    gone.standing = Standing::Gone;
    assert_eq!(ledger.rights(), [gone, as_installed(&fields)]);
}

#[test]
fn the_mixed_table_agrees_with_its_history_in_any_slot_order() {
    let ledger = ledger_of(&mixed_history());
    let table = mixed_table();
    assert_eq!(agrees(&ledger, &table), Ok(()));
    let slots: Vec<&[u8]> = table.chunks(SLOT_BYTES).rev().collect();
    assert_eq!(agrees(&ledger, &slots.concat()), Ok(()));
    assert_eq!(agrees(&Ledger::new(), &common::blank(3)), Ok(()));
}

/// The mixed table has a right for use in slots 0 and 4, a lent one in slot 2, a
/// reservation in slot 1, and nothing in slot 3.
#[test]
fn a_ledger_is_read_off_a_table_by_its_slots() {
    let lent = Right {
        standing: Standing::Lent,
        handle: [5; 10],
        ..as_installed(&right(3, 8, 4096))
    };
    let first = as_installed(&right(1, 2, 33));
    let last = as_installed(&uncounted(fourth()));
    let ledger = Ledger::read_off(&mixed_table()).expect("a well-formed table");
    assert_eq!(ledger.rights(), [first, lent, last]);
    let open = Setup {
        handle: [2; 10],
        length: 7,
    };
    assert_eq!(ledger.setups(), [open]);
    assert_eq!(agrees(&ledger, &mixed_table()), Ok(()));
}

#[test]
fn a_ledger_read_off_a_blank_table_is_empty() {
    for slots in 1..=15 {
        assert_eq!(
            Ledger::read_off(&common::blank(slots)),
            Ok(Ledger::default())
        );
    }
}

/// What was there at first keeps its numbers, and what is installed since has the
/// next ones; a right on the table at first is lent, returned and removed like any
/// other.
#[test]
fn a_history_goes_on_from_the_ledger_read_off() {
    let mut table = mixed_table();
    let mut ledger = Ledger::read_off(&table).expect("a well-formed table");
    let at_first = ledger.rights().to_vec();
    let steps = [
        (2, right(2, 3, 6)),
        (3, lending(1, 9)),
        (5, returning(5, Count::Kept(0))),
        (6, about(4)),
        (1, setup(4, 9)),
        (2, right(4, 1, 2)),
    ];
    for (kind, fields) in &steps {
        common::call_for(0, &mut table, *kind, fields);
        let frame = frame_bytes(*kind, fields);
        let ReadRequest::Request(request) = read_request(&frame) else {
            panic!("{frame:02x?} is a request");
        };
        ledger.tell(&request, 0);
        assert_eq!(agrees(&ledger, &table), Ok(()), "kind {kind}");
    }
    let [mut first, mut second, mut third] = <[Right; 3]>::try_from(at_first).expect("three");
    (first.standing, first.handle) = (Standing::Lent, [9; 10]);
    (second.standing, second.count) = (Standing::ForUse, Count::Kept(0));
    third.standing = Standing::Gone;
    let installed = [right(2, 3, 6), right(4, 1, 2)].map(|fields| as_installed(&fields));
    assert_eq!(ledger.rights()[..3], [first, second, third]);
    assert_eq!(ledger.rights()[3..], installed);
    assert!(ledger.setups().is_empty());
}

#[test]
fn no_ledger_is_read_off_a_table_that_is_refused() {
    let mut table = mixed_table();
    table[191] = 1;
    assert_eq!(Ledger::read_off(&table), Err(103));
    table.pop();
    assert_eq!(Ledger::read_off(&table), Err(102));
}

#[test]
fn a_table_with_any_byte_changed_does_not_agree() {
    let ledger = ledger_of(&mixed_history());
    let mut table = mixed_table();
    for index in 0..table.len() {
        let bit = 1 << (index % 8);
        table[index] ^= bit;
        assert!(agrees(&ledger, &table).is_err(), "byte {index}");
        table[index] ^= bit;
    }
}

/// A count that is used up and none at all have equal numbers.
#[test]
fn the_count_is_told_with_its_bit() {
    for told in [Count::NotKept, Count::Kept(0)] {
        let installed = OwnFields {
            count: told,
            ..right(1, 1, 5)
        };
        let ledger = ledger_of(&[(1, setup(1, 5), 0), (2, installed.clone(), 0)]);
        for held in [Count::NotKept, Count::Kept(0)] {
            let mut table = common::blank(1);
            common::call_for(0, &mut table, 1, &setup(1, 5));
            let fields = OwnFields {
                count: held,
                ..installed.clone()
            };
            common::call_for(0, &mut table, 2, &fields);
            let agreed = agrees(&ledger, &table);
            assert_eq!(agreed.is_ok(), told == held, "{told:?}, {held:?}");
            if let Err(message) = agreed {
                assert!(message.ends_with("count"), "{message}");
            }
        }
    }
}

#[test]
fn records_too_many_or_too_few_do_not_agree() {
    let table = mixed_table();
    // all steps but the setups that a later step closes
    for step in [1, 5, 6, 7, 8, 9] {
        let mut history = mixed_history();
        history.remove(step);
        assert!(agrees(&ledger_of(&history), &table).is_err(), "step {step}");
    }
    for slot in [0, 1, 2, 4] {
        let mut less = table.clone();
        less[slot * SLOT_BYTES..][..SLOT_BYTES].fill(0);
        assert!(agrees(&ledger_of(&mixed_history()), &less).is_err());
    }
    let mut twice = mixed_history();
    twice.push((1, setup(2, 7), 0));
    assert!(agrees(&ledger_of(&twice), &table).is_err(), "one slot each");
}

#[test]
fn a_difference_is_named() {
    let ledger = ledger_of(&mixed_history());
    for (offset, name) in [(11, "key"), (28, "count"), (31, "hashes"), (192, "payload")] {
        let mut table = mixed_table();
        table[offset] ^= 1;
        let message = agrees(&ledger, &table).expect_err("a difference");
        assert!(message.ends_with(name), "{message}");
    }
    assert!(agrees(&ledger, &[]).is_err_and(|message| message.ends_with("102")));
}
