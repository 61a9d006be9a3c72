//! The steps of the walk.

use cavernlull::{AssetHash, Handle, Key, Request, Right, Status};

/// A request, and what the card must answer.
pub struct Step {
    /// What the order desk does.
    pub title: &'static str,
    /// The request that does it.
    pub request: Request,
    /// Where the writer refuses the request: bytes that are sent all the same.
    pub bytes: Option<Vec<u8>>,
    /// A slot that a worn block damages before the request. The card is salvaged
    /// then, and the request sent again.
    pub worn: Option<usize>,
    /// The status of the reply.
    pub expected: Status,
    /// Why the card gives this answer.
    pub why: &'static str,
}

/// The handles of the course, of the course while it is lent, and of another
/// course.
const COURSE: Handle = Handle(*b"BRAZING-01");
const LENT: Handle = Handle(*b"LENT-TO-42");
const OTHER: Handle = Handle(*b"WELDING-07");

/// The handles of a course for one use, before it is lent and while it is lent
/// the first and the second time.
const LAST: Handle = Handle(*b"CUTTING-03");
const FIRST_LENT: Handle = Handle(*b"LENT-TO-43");
const SECOND_LENT: Handle = Handle(*b"LENT-TO-44");

/// The handle of a course that is to come.
const NEXT: Handle = Handle(*b"FORGING-05");

fn step(title: &'static str, request: Request, expected: Status, why: &'static str) -> Step {
    Step {
        title,
        request,
        bytes: None,
        worn: None,
        expected,
        why,
    }
}

/// The hash of the module that all these courses have.
const MODULE: AssetHash = AssetHash(*b"SHA-1 of one module ");

/// The course itself: a key, how many uses, one module, and what the player
/// reads.
fn right(uses: u16, text: &str) -> Right {
    Right {
        key: Key(*b"key of a course!"),
        count: Some(uses),
        hashes: vec![MODULE],
        payload: text.as_bytes().to_vec(),
    }
}

/// A course comes onto the card, is lent and returned, and goes. One whose uses
/// run out is lost with a worn block, and another is not.
pub fn steps() -> Vec<Step> {
    let mut steps = loading();
    steps.extend(loading_another());
    steps.extend(lending());
    steps.extend(using_up());
    steps.extend(removing());
    steps.extend(salvaging());
    steps
}

fn setup(handle: Handle, room: u16) -> Request {
    Request::InstallationSetup { handle, room }
}

fn install(handle: Handle, uses: u16, text: &str) -> Request {
    Request::RightsInstallation {
        handle,
        right: right(uses, text),
    }
}

/// An installation without a hash. The writer refuses it, so its bytes are put
/// together here.
fn install_without_hash(handle: Handle, uses: u16, text: &str) -> Step {
    let right = Right {
        hashes: vec![],
        ..right(uses, text)
    };
    let [high, low] = uses.to_be_bytes();
    let head = [0x22, 0xC0, 0, 29 + text.len() as u8];
    let fields = [&handle.0[..], &right.key.0, &[high, low, 0]].concat();
    Step {
        bytes: Some([&head, &fields[..], text.as_bytes()].concat()),
        ..step(
            "It is sent without the hash of its module",
            Request::RightsInstallation { handle, right },
            Status::ParameterFailed,
            "The writer does not write it, and says why. Sent all the same, as bytes, it is refused by the card.",
        )
    }
}

fn list(hashes: Vec<AssetHash>) -> Request {
    Request::HandleListQuery { limit: 0, hashes }
}

fn lend(handle: Handle, new_handle: Handle) -> Request {
    Request::RekQuery { handle, new_handle }
}

fn give_back(handle: Handle, uses: u16) -> Request {
    Request::RightsEnablement {
        handle,
        count: Some(uses),
    }
}

/// The course is lent once, and returned with no more uses than it went with.
fn lending() -> Vec<Step> {
    vec![
        step("The course is lent", lend(COURSE, LENT), Status::Success,
            "The key goes out. On the card the course is disabled, under the handle of who has it."),
        step("It is lent a second time", lend(COURSE, LENT), Status::HandleNotFound,
            "No right is under that handle any more, so no second key goes out."),
        step("The other course is lent under the same handle", lend(OTHER, LENT), Status::DuplicateHandle,
            "The handle is taken. It is looked for before anything is written: the other course stays as it was."),
        step("The course comes back, with more uses than it went with", give_back(LENT, 11), Status::CountRaised,
            "Ten were lent, and a return adds none. Nothing is returned: the course stays lent, and can be returned with what is left."),
        step("The course comes back", give_back(LENT, 9), Status::Success,
            "It is for use again, with the nine uses that are left. One of ten was used, and planners total that."),
        step("The message is sent again", give_back(LENT, 3), Status::Success,
            "A return whose reply was lost can be repeated. The count of a course for use is not set again, nor is the return counted."),
    ]
}

/// A course for one use is lent, comes back used up, and is lent again: a count
/// is still kept, and it is 0.
fn using_up() -> Vec<Step> {
    let retrieval = Request::RightsRetrieval {
        handle: FIRST_LENT,
        new_handle: SECOND_LENT,
    };
    vec![
        step("Room for a course that can be used once", setup(LAST, 24), Status::Success,
            "The third slot is reserved."),
        step("It is installed", install(LAST, 1, "cutting, module 3"), Status::Success,
            "Its second byte is c0: bit 40 says that a count is kept. The card stores that with the count."),
        step("It is lent, for its last use", lend(LAST, FIRST_LENT), Status::Success,
            "The key goes out."),
        step("It comes back, used up", give_back(FIRST_LENT, 0), Status::Success,
            "The count is 0, and bit 40 says that it is kept: this is no course without a count."),
        step("It is lent again, whole", retrieval, Status::Success,
            "The second byte of the reply is 80: a count is still kept, and it is 0. The device sees that no use is left."),
    ]
}

fn remove(handle: Handle) -> Request {
    Request::RightsRemoval { handle }
}

/// The first course is removed. Room for one more is not in the slot that it
/// leaves, but in the one after the last that was taken.
fn removing() -> Vec<Step> {
    let give_up = Request::HandleRemoval { handle: NEXT };
    vec![
        step(
            "The first course is removed",
            remove(LENT),
            Status::Success,
            "Every byte of its slot is 0, the key too.",
        ),
        step(
            "Room for the next course",
            setup(NEXT, 24),
            Status::Success,
            "It is in the slot after the last one taken, so that all slots wear alike.",
        ),
        step(
            "The next course does not come, and its room is given up",
            give_up,
            Status::Success,
            "The slot is empty again.",
        ),
    ]
}

/// A worn block damages the slot of the course that is used up. The other course
/// is lent all the same, and removed.
fn salvaging() -> Vec<Step> {
    let lending = step(
        "The other course is lent, but a block of the card is worn",
        lend(OTHER, LENT),
        Status::Success,
        "One damaged slot, and the whole card is refused. The salvage clears that slot and no other: the course is lent.",
    );
    vec![
        Step {
            worn: Some(2),
            ..lending
        },
        step(
            "It is removed",
            remove(LENT),
            Status::Success,
            "A course can be removed also while it is lent. The card is blank again.",
        ),
    ]
}

/// A course is set up and installed, with a hash and not without one.
fn loading() -> Vec<Step> {
    let text = "brazing, module 1";
    vec![
        step(
            "Room is set up for a course",
            setup(COURSE, 24),
            Status::Success,
            "The search begins at slot 0, which is empty. It is reserved under the course's handle, with no payload yet.",
        ),
        install_without_hash(COURSE, 10, text),
        step(
            "The course is installed",
            install(COURSE, 10, text),
            Status::Success,
            "With its hash it is taken: the right is enabled, and its length is now the payload's.",
        ),
        step(
            "Which course has this module?",
            list(vec![MODULE]),
            Status::Success,
            "The course is found by its hash. Without one it would not be.",
        ),
        step(
            "Room for the same course once more",
            setup(COURSE, 24),
            Status::DuplicateHandle,
            "A handle is never given twice.",
        ),
    ]
}

/// Another course is set up and installed, and both are listed.
fn loading_another() -> Vec<Step> {
    vec![
        step(
            "Room for another course",
            setup(OTHER, 24),
            Status::Success,
            "The next slot is reserved.",
        ),
        step(
            "The other course is installed",
            install(OTHER, 10, "welding, module 7"),
            Status::Success,
            "Equal keys and counts do not matter: it is a right of its own.",
        ),
        step(
            "What is for use?",
            list(vec![]),
            Status::Success,
            "Both courses, in the order of their slots.",
        ),
    ]
}
