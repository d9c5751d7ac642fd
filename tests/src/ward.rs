//! The ward examples of 01: image A and its variants, 003's three roles, a few more, image A for two users with limits,
//! what stands in the way of asks, and bounds as one hex number.

use crate::solver::calls::{Call, Reply};
use crate::solver::line::LINE;
use crate::words;

/// Image A of 01, from 000's running example, word for word.
pub const A: [u32; 13] = [
    0x102080A0, 0x20000000, 0x20010000, 0x30000000, 0x30004000, 0x30008000, 0x3000C000, 0x30404000, 0x30410000, 0x54102000,
    0x60000000, 0x60400000, 0xFB0B9F60,
];

pub fn image_a() -> Vec<u8> {
    words::bytes(&A)
}

/// Image A with its exclusion made of this kind and n.
pub fn image_a_with(kind: u32, n: u32) -> Vec<u8> {
    let mut image = A;
    image[9] = words::exclusion_head(kind, n, 2);
    words::rebalance(&mut image);
    words::bytes(&image)
}

/// Image A with a grant repeated up to 4,096 words.
pub fn image_a_filled() -> Vec<u8> {
    let mut image = A.to_vec();
    image.splice(3..3, std::iter::repeat_n(words::grant(0, 0), 4096 - A.len()));
    words::rebalance(&mut image);
    words::bytes(&image)
}

/// So many users with the roles 0 and 1 of four, which exclude each other over the open windows of a user.
pub fn image_of_users(users: u32) -> Vec<u8> {
    let mut list = vec![words::head(users, 4, 4)];
    list.extend((0..users).flat_map(|user| [words::assignment(user, 0), words::assignment(user, 1)]));
    list.extend((0..4).map(|role| words::grant(role, role)));
    list.extend(words::exclusion(1, 2, &[0, 1]));
    words::bytes(&words::closed(list))
}

/// Image A for two users who both have both roles, with limits: each a role and its t.
pub fn image_limited(limits: &[(u32, u32)]) -> Vec<u8> {
    let mut image = vec![words::head(2, 2, 5), words::assignment(1, 0), words::assignment(1, 1)];
    image.extend(&A[1..12]);
    image.extend(limits.iter().map(|(role, limit)| words::limit(*role, *limit)));
    words::bytes(&words::closed(image))
}

/// 003's three roles, carrying {0,2}, {1,3} and {1,2}, no exclusion.
pub fn three_roles() -> Vec<u8> {
    roles_carrying(&[&[0, 2], &[1, 3], &[1, 2]])
}

/// One user with a role for each of these lists of permissions below 4, no exclusion.
fn roles_carrying(rows: &[&[u32]]) -> Vec<u8> {
    let mut image = vec![words::head(1, rows.len() as u32, 4)];
    image.extend((0..rows.len() as u32).map(|role| words::assignment(0, role)));
    for (role, row) in (0..).zip(rows) {
        image.extend(row.iter().map(|permission| words::grant(role, *permission)));
    }
    words::bytes(&words::closed(image))
}

/// Role 0 over 3 over 2 over 1; roles 1 and 2 are granted permission 0, role 0 permission 1; the user has roles 2 and
/// 3.
fn two_grants() -> Vec<u8> {
    let mut image = vec![words::head(1, 4, 2), words::assignment(0, 2), words::assignment(0, 3)];
    image.extend([words::grant(1, 0), words::grant(2, 0), words::grant(0, 1)]);
    image.extend([words::senior(0, 3), words::senior(3, 2), words::senior(2, 1)]);
    words::bytes(&words::closed(image))
}

/// A bound's 32 bytes whose bit p is permission p, for the permissions below 64.
pub fn bound(number: u64) -> Vec<u8> {
    let mut bytes = number.to_le_bytes().to_vec();
    bytes.resize(32, 0);
    bytes
}

/// One user with this many roles assigned, of 20.
pub fn roles_of_one_user(count: u32) -> Vec<u8> {
    let mut image = vec![words::head(1, 20, 1)];
    image.extend((0..count).map(|role| words::assignment(0, role)));
    words::bytes(&words::closed(image))
}

/// What 01 writes for a call: the number, the extra, roles and permissions (0 unless an ask or show is done).
pub type Seen = (u64, u64, u64, u64);

/// A ward example: calls on the zero ledger and what they answer.
pub struct Case {
    pub name: &'static str,
    pub image: Vec<u8>,
    pub calls: Vec<Call>,
    pub expected: Vec<Seen>,
}

/// What a reply shows, for permissions below 64.
pub fn seen(reply: &Reply) -> Seen {
    let number = |bytes: &[u8]| bytes.iter().rev().fold(0, |sum, byte| sum * 256 + u64::from(*byte));
    let (roles, permissions) = reply.answer.as_ref().map_or((0, 0), |answer| (number(&answer[..8]), number(&answer[8..16])));
    (reply.number, reply.extra, roles, permissions)
}

fn open() -> Call {
    Call::Open { user: 0 }
}

fn close(session: u64) -> Call {
    Call::Close { user: 0, session }
}

fn show(session: u64) -> Call {
    Call::Show { user: 0, session, room: 40 }
}

fn ask(session: u64, lower: u64, upper: u64, objectives: (u64, u64)) -> Call {
    Call::Ask { user: 0, session, lower: bound(lower), upper: bound(upper), objectives, room: 40 }
}

fn explain(session: u64, permission: u64) -> Call {
    Call::Explain { user: 0, session, permission }
}

fn short(session: u64, lower: u64, upper: u64) -> Call {
    Call::ShortAsk { user: 0, session, lower: bound(lower), upper: bound(upper), room: 40 }
}

/// The script of 01: two windows of one doctor.
fn script() -> Vec<Call> {
    let (prescribe, manage) = (ask(0, 0x3, 0x1f, (1, 0)), ask(1, 0x12, 0x1f, (1, 0)));
    vec![open(), prescribe, open(), manage.clone(), close(0), manage]
}

/// What the script answers when only its last line is left open.
fn script_ending(last: Seen) -> Vec<Seen> {
    vec![(0, 0, 0, 0), (0, 0, 1, 0xf), (0, 1, 0, 0), (20, 0, 0, 0), (0, 0, 0, 0), last]
}

/// Every ward example of 01, the starred ones and those that are only run, and a few of the change requests.
pub fn cases() -> Vec<Case> {
    let opened = (0, 0, 0, 0);
    let none = (20, 0, 0, 0);
    let case = |name, image: Vec<u8>, calls: Vec<Call>, expected: Vec<Seen>| Case { name, image, calls, expected };
    let mut cases = vec![
        case("the script under A", image_a(), script(), script_ending((0, 0, 2, 0x12))),
        case("the script under A with kind 3", image_a_with(3, 2), script(), script_ending(none)),
        case(
            "A with kind 2, in the same and in a new session",
            image_a_with(2, 2),
            vec![open(), ask(0, 0x3, 0x1f, (0, 0)), ask(0, 0x12, 0x1f, (0, 0)), open(), ask(1, 0x12, 0x1f, (0, 0))],
            vec![opened, (0, 0, 1, 0xf), none, (0, 1, 0, 0), (0, 0, 2, 0x12)],
        ),
        case("lower 3 and upper 3: Doctor carries more", image_a(), vec![open(), ask(0, 3, 3, (0, 0))], vec![opened, none]),
        case("both bounds empty", image_a(), vec![open(), ask(0, 0, 0, (1, 0))], vec![opened, opened]),
        case("n 1, lower 3", image_a_with(1, 1), vec![open(), ask(0, 3, 0x1f, (0, 0))], vec![(5, 9, 0, 0); 2]),
        case("n 1, both bounds empty", image_a_with(1, 1), vec![open(), ask(0, 0, 0, (0, 0))], vec![(5, 9, 0, 0); 2]),
        case("ninth open", image_a(), vec![open(); 9], (0..8).map(|session| (0, session, 0, 0)).chain([(14, 0, 0, 0)]).collect()),
        case("lower outside upper", image_a(), vec![open(), ask(0, 0x3, 0x1d, (0, 0))], vec![opened, (17, 0, 0, 0)]),
        case("person 1 of A", image_a(), vec![Call::Open { user: 1 }], vec![(10, 0, 0, 0)]),
        case(
            "show after an ask, after a close",
            image_a(),
            vec![open(), ask(0, 0x3, 0x1f, (0, 0)), show(0), close(0), show(0)],
            vec![opened, (0, 0, 1, 0xf), (0, 0, 1, 0xf), opened, (13, 0, 0, 0)],
        ),
    ];
    cases.push(case(
        "an explain names the lowest active role and the lowest granting role at or below it",
        two_grants(),
        vec![open(), explain(0, 0), ask(0, 1, 1, (0, 2)), explain(0, 0), explain(0, 1), explain(0, 2), explain(1, 2), show(0)],
        vec![opened, none, (0, 0, 14, 1), (0, 64 + 1, 0, 0), none, (16, 0, 0, 0), (13, 0, 0, 0), (0, 0, 14, 1)],
    ));
    for (objectives, roles, carried) in [((2, 0), 3, 0xf), ((2, 2), 7, 0xf), ((1, 2), 1, 0x5)] {
        let calls = vec![open(), ask(0, 0x1, 0xf, objectives)];
        cases.push(case("003's three roles", three_roles(), calls, vec![opened, (0, 0, roles, carried)]));
    }
    for kind in [0, 1] {
        let calls = vec![open(), ask(0, 0x3, 0x1f, (0, 0)), ask(0, 0x12, 0x1f, (0, 0))];
        let expected = vec![opened, (0, 0, 1, 0xf), (0, 0, 2, 0x12)];
        cases.push(case("a replaced set does not count in kinds 0 and 1", image_a_with(kind, 2), calls, expected));
    }
    // roles carrying, lower bound, then (roles, permissions) by the objectives 0, 0 and by a short ask
    let by_short_asks: [(&str, Vec<u8>, u64, (u64, u64), (u64, u64)); 3] = [
        ("a short ask takes fewest permissions", three_roles(), 0x6, (0x3, 0xf), (0x4, 0x6)),
        ("then fewest roles", roles_carrying(&[&[0], &[1], &[0, 1]]), 0x3, (0x3, 0x3), (0x4, 0x3)),
        ("permissions before roles", roles_carrying(&[&[0, 1, 2], &[0], &[1]]), 0x3, (0x1, 0x7), (0x6, 0x3)),
    ];
    for (name, image, lower, any, fewest) in by_short_asks {
        let calls = vec![open(), ask(0, lower, 0xf, (0, 0)), short(0, lower, 0xf), ask(0, lower, 0xf, (1, 1))];
        let expected = vec![opened, (0, 0, any.0, any.1), (0, 0, fewest.0, fewest.1), (0, 0, fewest.0, fewest.1)];
        cases.push(case(name, image, calls, expected));
    }
    cases
}

/// An example that starts from a ledger of its own: calls and what they answer.
pub struct LedgerCase {
    pub name: &'static str,
    pub image: Vec<u8>,
    pub ledger: Vec<u8>,
    pub calls: Vec<Call>,
    pub expected: Vec<Seen>,
}

/// Roles of image A.
const DOCTOR: u32 = 0;
const DATA_MANAGER: u32 = 1;

/// The second user's call of the same arguments.
fn of_second(call: Call) -> Call {
    match call {
        Call::Open { .. } => Call::Open { user: 1 },
        Call::Ask { session, lower, upper, objectives, room, .. } => {
            Call::Ask { user: 1, session, lower, upper, objectives, room }
        }
        call => panic!("{call:?} is no open and no ask"),
    }
}

fn doctor(session: u64) -> Call {
    ask(session, 0x3, 0x1f, (1, 1))
}

fn manager(session: u64) -> Call {
    ask(session, 0x12, 0x1f, (1, 1))
}

/// The clause text of an ask, in a buffer of this length.
fn text(session: u64, room: usize) -> Call {
    Call::Clauses { user: 0, session, lower: bound(0x2), upper: bound(0xf), objectives: (1, 1), room }
}

/// A line in which Doctor is active in the first sessions, so many of them.
pub fn doctors_in(sessions: usize) -> Vec<u8> {
    let mut line = vec![0; LINE];
    (line[0], line[8]) = (((1u32 << sessions) - 1) as u8, 1);
    for session in 0..sessions {
        (line[16 + 16 * session], line[24 + 16 * session]) = (1, 1);
    }
    line
}

/// What 02 says of limits, worked out by hand.
pub fn limit_cases() -> Vec<LedgerCase> {
    let (opened, none) = ((0, 0, 0, 0), (20, 0, 0, 0));
    let (prescribes, manages) = ((0, 0, 1, 0xf), (0, 0, 2, 0x12));
    let (zero, damaged) = (vec![0; LINE], vec![0xff; LINE]);
    let refused = |extra| (11, extra, 0, 0);
    let case = |name, limits: &[(u32, u32)], lines: [&Vec<u8>; 2], calls: Vec<Call>, expected: Vec<Seen>| LedgerCase {
        name,
        image: image_limited(limits),
        ledger: lines.map(|line| line.clone()).concat(),
        calls,
        expected,
    };
    let both_ask = || vec![open(), doctor(0), of_second(open()), of_second(doctor(0))];
    vec![
        case(
            "the second of two users is refused a role with t 2 until the first closes, and given a set without it",
            &[(DOCTOR, 2)],
            [&zero, &zero],
            [both_ask(), vec![of_second(manager(0)), close(0), of_second(doctor(0))]].concat(),
            vec![opened, prescribes, opened, none, manages, opened, prescribes],
        ),
        case(
            "the user's own other sessions count and the replaced roles do not",
            &[(DOCTOR, 2)],
            [&zero, &zero],
            vec![open(), doctor(0), doctor(0), open(), doctor(1)],
            vec![opened, prescribes, prescribes, (0, 1, 0, 0), none],
        ),
        case(
            "t of 3 lets two sessions hold the role, and each role has its own limit",
            &[(DOCTOR, 3), (DATA_MANAGER, 2)],
            [&zero, &zero],
            vec![open(), doctor(0), open(), doctor(1), of_second(open()), of_second(doctor(0)), of_second(manager(0))],
            vec![opened, prescribes, (0, 1, 0, 0), prescribes, opened, none, manages],
        ),
        case(
            "of several limits the smallest counts, the smaller one first",
            &[(DOCTOR, 2), (DOCTOR, 3)],
            [&zero, &zero],
            both_ask(),
            vec![opened, prescribes, opened, none],
        ),
        case(
            "of several limits the smallest counts, the smaller one last",
            &[(DOCTOR, 3), (DOCTOR, 2)],
            [&zero, &zero],
            both_ask(),
            vec![opened, prescribes, opened, none],
        ),
        case(
            "a history does not count",
            &[(DOCTOR, 2)],
            [&zero, &zero],
            vec![open(), doctor(0), ask(0, 0x10, 0x1f, (1, 1)), of_second(open()), of_second(doctor(0))],
            vec![opened, prescribes, manages, opened, prescribes],
        ),
        case(
            "a damaged line of a higher user is named to asks and clause texts, before 12, and no other call looks at it",
            &[(DOCTOR, 2)],
            [&zero, &damaged],
            vec![
                open(),
                short(0, 0x3, 0x1f),
                ask(8, 0, 0, (3, 3)),
                text(0, 0),
                show(0),
                explain(0, 4),
                close(0),
                of_second(open()),
                of_second(doctor(0)),
            ],
            vec![opened, refused(2), refused(2), refused(2), opened, none, opened, refused(0), refused(0)],
        ),
        case(
            "of a lower user, and the user's own",
            &[(DOCTOR, 2)],
            [&damaged, &zero],
            vec![of_second(open()), of_second(doctor(0)), doctor(0)],
            vec![opened, refused(1), refused(0)],
        ),
        case(
            "of two damaged lines the lower one is told",
            &[(DATA_MANAGER, 256)],
            [&damaged, &damaged],
            vec![of_second(doctor(0)), doctor(0), of_second(open()), text(0, 0)],
            vec![refused(1), refused(0), refused(0), refused(0)],
        ),
        case(
            "a clause text bars the role too, by one line more than fits",
            &[(DATA_MANAGER, 2)],
            [&zero, &zero],
            vec![of_second(open()), of_second(manager(0)), open(), text(0, 258)],
            vec![opened, manages, opened, (19, 0, 0, 0)],
        ),
        case(
            "a line over a limit is sound, asks for other roles go on, and the limit holds again from below it",
            &[(DOCTOR, 2)],
            [&doctors_in(2), &zero],
            vec![show(0), doctor(0), of_second(open()), of_second(doctor(0)), of_second(manager(0)), close(1), doctor(0)],
            vec![prescribes, none, opened, none, manages, opened, prescribes],
        ),
        case(
            "without a limit nobody looks at another line",
            &[],
            [&zero, &damaged],
            vec![open(), doctor(0), short(0, 0x12, 0x1f), of_second(doctor(0))],
            vec![opened, prescribes, manages, refused(0)],
        ),
    ]
}

/// What stands in the way of an ask of user 0.
fn obstacle(session: u64, lower: u64, upper: u64) -> Call {
    Call::Obstacle { user: 0, session, lower: bound(lower), upper: bound(upper), room: 16 }
}

/// Image A with another exclusion of its two roles behind its own.
fn image_a_and(kind: u32, n: u32) -> Vec<u8> {
    let mut image = A[..12].to_vec();
    image.extend(words::exclusion(kind, n, &[0, 1]));
    words::bytes(&words::closed(image))
}

/// Image A where the user is Doctor alone.
fn doctor_alone() -> Vec<u8> {
    words::bytes(&words::closed([&A[..2], &A[3..12]].concat()))
}

/// A ward head over Nurse beside Surgeon, each carrying one permission.
fn ward_head() -> Vec<u8> {
    let grants = (0..3).map(|role| words::grant(role, role));
    let image = [words::head(1, 3, 3), words::assignment(0, 0)].into_iter().chain(grants).chain([words::senior(0, 1)]);
    words::bytes(&words::closed(image.collect()))
}

/// What P14 says of obstacles, worked out by hand; the runs of crates/model_cases/specs/ObstacleCases.antt.
pub fn obstacle_cases() -> Vec<LedgerCase> {
    let (opened, none) = ((0, 0, 0, 0), (20, 0, 0, 0));
    let (prescribes, manages) = ((0, 0, 1, 0xf), (0, 0, 2, 0x12));
    let refused = |number| (number, 0, 0, 0);
    let names = |kind: u64, about: u64, first, second| (0, kind + 8 * about, first, second);
    let excludes = |kind: u64, counted: u64| names(4, kind + 4 * 2, counted, 3);
    let of_user_1 = |lower| Call::Obstacle { user: 1, session: 0, lower: bound(lower), upper: bound(0x1f), room: 16 };
    let wrong = |session, lower: &[u8], upper, room| Call::Obstacle {
        user: 0,
        session,
        lower: lower.to_vec(),
        upper: bound(upper),
        room,
    };
    let case = |name, image: Vec<u8>, ledger: Vec<u8>, calls: Vec<Call>, expected: Vec<Seen>| LedgerCase {
        name,
        image,
        ledger,
        calls,
        expected,
    };
    let zero = || vec![0; LINE];
    vec![
        case(
            "Doctor of the other session bars Data_Manager until that session is closed",
            image_a(),
            zero(),
            vec![open(), doctor(0), open(), obstacle(1, 0x12, 0x1f), manager(1), close(0), obstacle(1, 0x12, 0x1f), manager(1)],
            vec![opened, prescribes, (0, 1, 0, 0), excludes(1, 1), none, opened, none, manages],
        ),
        case(
            "kind 3 counts Doctor for good",
            image_a_with(3, 2),
            zero(),
            vec![open(), doctor(0), close(0), open(), obstacle(0, 0x10, 0x1f)],
            vec![opened, prescribes, opened, opened, excludes(3, 1)],
        ),
        case(
            "kind 2 in this session alone; of both roles nothing is counted beforehand",
            image_a_with(2, 2),
            zero(),
            vec![open(), doctor(0), obstacle(0, 0x10, 0x1f), open(), obstacle(1, 0x10, 0x1f), obstacle(1, 0x11, 0x1f)],
            vec![opened, prescribes, excludes(2, 1), (0, 1, 0, 0), none, excludes(2, 0)],
        ),
        case(
            "a role that is not the user's comes before one that carries more, about a lower permission",
            doctor_alone(),
            zero(),
            vec![open(), obstacle(0, 0x12, 0x1f), obstacle(0, 0x11, 0x11), obstacle(0, 0x1, 0x11)],
            vec![opened, names(1, 4, 2, 0), names(1, 4, 2, 0), names(2, 0, 1, 0)],
        ),
        case(
            "the ward head may take Nurse and not Surgeon",
            ward_head(),
            zero(),
            vec![open(), obstacle(0, 0x6, 0x7)],
            vec![opened, names(1, 2, 4, 0)],
        ),
        case(
            "Doctor carries more than the upper bound, and so does Data_Manager; nothing hinders empty bounds",
            image_a(),
            zero(),
            vec![open(), obstacle(0, 0x3, 0x3), obstacle(0, 0x2, 0x2), obstacle(0, 0, 0)],
            vec![opened, names(2, 0, 1, 0), names(2, 1, 3, 0), none],
        ),
        case(
            "the other user's session holds Doctor, which one session may; Data_Manager carries permission 1 too",
            image_limited(&[(DOCTOR, 2)]),
            vec![0; 2 * LINE],
            vec![open(), doctor(0), of_second(open()), of_user_1(0x6), of_user_1(0x2)],
            vec![opened, prescribes, opened, names(3, 2, 1, 0), none],
        ),
        case(
            "the order is that of the tidy image, by kind first",
            image_a_and(0, 2),
            zero(),
            vec![open(), obstacle(0, 0x11, 0x1f)],
            vec![opened, excludes(0, 0)],
        ),
        case(
            "a repeated exclusion adds nothing",
            image_a_and(1, 2),
            zero(),
            vec![open(), obstacle(0, 0x11, 0x1f)],
            vec![opened, excludes(1, 0)],
        ),
        case(
            "an exclusion that leaves a set is passed over",
            image_a_and(0, 2),
            zero(),
            vec![open(), doctor(0), open(), obstacle(1, 0x10, 0x1f)],
            vec![opened, prescribes, (0, 1, 0, 0), excludes(1, 1)],
        ),
        case(
            "tests run in number order",
            image_a(),
            zero(),
            vec![
                wrong(8, &[0; 31], 0x20, 0),
                obstacle(0, 0x3, 0x3),
                open(),
                wrong(0, &[0; 31], 0x20, 0),
                obstacle(0, 0x3f, 0x1f),
                wrong(0, &bound(0x3), 0x1, 0),
                wrong(0, &bound(0), 0, 40),
            ],
            vec![refused(12), refused(13), opened, refused(15), refused(16), refused(17), refused(19)],
        ),
        case(
            "under a limit another user's damaged line is named, as to an ask",
            image_limited(&[(DOCTOR, 2)]),
            [vec![0; LINE], vec![0xff; LINE]].concat(),
            vec![open(), obstacle(0, 0x3, 0x1f)],
            vec![opened, (11, 2, 0, 0)],
        ),
    ]
}

/// The image of the second clause text of docs/CLAUSES.md: one exclusion of the present and one of the past, both
/// reduced.
pub fn image_reduced() -> Vec<u8> {
    let mut list = vec![words::head(1, 4, 3)];
    list.extend((0..3).map(|role| words::assignment(0, role)));
    list.extend([(0, 0), (1, 1), (2, 0), (2, 2), (3, 1), (3, 2)].map(|(role, permission)| words::grant(role, permission)));
    list.extend(words::exclusion(0, 3, &[0, 1, 2]));
    list.extend(words::exclusion(3, 2, &[1, 2, 3]));
    words::bytes(&words::closed(list))
}
