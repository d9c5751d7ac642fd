//! Every call but the clause text on images of 13 and of 4,096 words in several orders, and on those that one call
//! finds hard: a deep hierarchy, one role over fifteen, limits, loops, repeats.

use crate::images::{self, Image};
use crate::plain;
use crate::plain_c;
use crate::report::Report;
use nutrameza_tests::gen::Rng;
use nutrameza_tests::kit::{self, Empty};
use nutrameza_tests::solver::line::LINE;
use nutrameza_tests::solver::moves::{Move, BOTH};
use nutrameza_tests::solver::turned::Way;
use nutrameza_tests::words;
use std::hint::black_box;

/// Times all jobs.
pub fn all(report: &mut Report) {
    check(report);
    find_loop(report);
    tidy(report);
    tables(report);
    turns(report);
    calls(report);
    moves(report);
    limits(report);
}

fn check(report: &mut Report) {
    for image in images::in_all_orders().into_iter().chain([images::deep_image()]) {
        let bytes = &image.bytes;
        assert_eq!((kit::check(Empty::Null, bytes), plain::check(bytes)), (0, 0), "{}", image.name);
        let mut kit = || {
            black_box(kit::check(Empty::Null, black_box(bytes)));
        };
        let mut plain = || {
            black_box(plain::check(black_box(bytes)));
        };
        report.row(&format!("check, {}", image.name), &mut kit, &mut plain);
    }
}

fn find_loop(report: &mut Report) {
    for (name, image, length) in
        [("loop of 2 roles, 4 words", images::smallest_loop(), 2), ("loop of 64 roles, 4,096 words", images::deep(true), 64)]
    {
        let (mut first, mut second) = ([7; 64], [9; 64]);
        let (by_kit, by_plain) = (kit::find_loop(Empty::Null, &image, &mut first), plain::find_loop(&image, &mut second));
        assert_eq!((by_kit, first), (by_plain, second));
        assert_eq!(by_plain, 256 * length);
        assert_eq!(kit::check(Empty::Null, &image), plain::check(&image));
        assert_eq!(plain::check(&image) % 256, 22);
        let mut kit = || {
            black_box(kit::find_loop(Empty::Null, black_box(&image), &mut first));
        };
        let mut plain = || {
            black_box(plain::find_loop(black_box(&image), &mut second));
        };
        report.row(name, &mut kit, &mut plain);
    }
}

fn tidy(report: &mut Report) {
    for image in images::in_all_orders().into_iter().chain([images::repeated()]) {
        let bytes = &image.bytes;
        let (mut first, mut second) = (vec![7; bytes.len() + 8], vec![7; bytes.len() + 8]);
        let (by_kit, by_plain) = (kit::tidy(Empty::Null, bytes, &mut first), plain::tidy(bytes, &mut second));
        assert_eq!((by_kit, &first), (by_plain, &second));
        assert_eq!(by_plain % 256, 0);
        let mut kit = || {
            black_box(kit::tidy(Empty::Null, black_box(bytes), &mut first));
        };
        let mut plain = || {
            black_box(plain::tidy(black_box(bytes), &mut second));
        };
        report.row(&format!("tidy, {}", image.name), &mut kit, &mut plain);
    }
}

fn tables(report: &mut Report) {
    for image in images::in_all_orders().into_iter().chain([images::deep_image()]) {
        let bytes = &image.bytes;
        let (mut first, mut second) = ([7; 2048], [9; 2048]);
        let (by_kit, by_plain) = (kit::table(Empty::Null, bytes, &mut first), plain::table(bytes, &mut second));
        assert_eq!((by_kit, first, by_plain), (0, second, 0));
        let mut kit = || {
            black_box(kit::table(Empty::Null, black_box(bytes), &mut first));
        };
        let mut plain = || {
            black_box(plain::table(black_box(bytes), &mut second));
        };
        report.row(&format!("table, {}", image.name), &mut kit, &mut plain);
    }
}

/// A table turned and turned back.
fn turns(report: &mut Report) {
    let source = Rng::new(2048).bytes(2048);
    let ways: [(&str, Way, fn(&[u8], &mut [u8]) -> u64); 2] =
        [("turn", Way::Turn, plain::turn), ("unturn", Way::Unturn, plain::unturn)];
    for (name, way, by_plain) in ways {
        let (mut first, mut second) = ([7; 2048], [9; 2048]);
        assert_eq!((kit::turn(Empty::Null, way, &source, &mut first), by_plain(&source, &mut second)), (0, 0));
        assert_eq!(first, second);
        let mut kit = || {
            black_box(kit::turn(Empty::Null, way, black_box(&source), &mut first));
        };
        let mut plain = || {
            black_box(by_plain(black_box(&source), &mut second));
        };
        report.row(name, &mut kit, &mut plain);
    }
}

/// A ledger whose line of one user is set back before each call.
struct Desk<'a> {
    image: &'a [u8],
    ledger: Vec<u8>,
    line: [u8; LINE],
    user: u64,
    upper: [u8; 32],
    answer: [u8; 40],
}

/// The calls that name a user.
#[derive(Clone, Copy, Debug)]
enum Call {
    Open,
    Close,
    Show,
    /// Of this permission.
    Explain(u64),
    /// For this permission, with the objectives of a short ask.
    Ask(u64),
    ShortAsk(u64),
}

impl Call {
    fn name(self) -> &'static str {
        match self {
            Call::Open => "open",
            Call::Close => "close",
            Call::Show => "show",
            Call::Explain(_) => "explain",
            Call::Ask(_) => "ask",
            Call::ShortAsk(_) => "short ask",
        }
    }
}

/// The objectives of the asks, full and short.
const AIMS: (u64, u64) = nutrameza_tests::solver::calls::SHORT_OBJECTIVES;

/// The bound of all permissions of an image.
fn all_permissions(image: &[u8]) -> [u8; 32] {
    let permissions = words::from_bytes(&image[..4])[0] >> 5 & 511;
    std::array::from_fn(|place| (0..8).fold(0, |byte, bit| byte | u8::from(8 * place as u32 + bit < permissions) << bit))
}

/// A bound of one permission.
fn bound(permission: u64) -> [u8; 32] {
    let mut lower = [0; 32];
    lower[permission as usize / 8] = 1 << (permission % 8);
    lower
}

impl Desk<'_> {
    /// The last of so many users has this line; the others' lines are zero.
    fn new(image: &[u8], users: usize, line: [u8; LINE]) -> Desk<'_> {
        let upper = all_permissions(image);
        Desk { image, ledger: vec![0; LINE * users], line, user: users as u64 - 1, upper, answer: [0; 40] }
    }

    fn do_by(&mut self, call: Call, by_kit: bool) -> u64 {
        let at = LINE * self.user as usize;
        self.ledger[at..at + LINE].copy_from_slice(&self.line);
        let (image, ledger, user, answer) = (black_box(self.image), &mut self.ledger, self.user, &mut self.answer);
        let upper = &self.upper;
        if by_kit {
            return Self::do_by_kit(call, image, ledger, user, upper, answer);
        }
        match call {
            Call::Open => plain::open(image, ledger, user),
            Call::Close => plain::close(image, ledger, user, 0),
            Call::Show => plain::show(image, ledger, user, 0, answer),
            Call::Explain(permission) => plain::explain(image, ledger, user, 0, permission),
            Call::Ask(permission) | Call::ShortAsk(permission) => {
                let wish = plain::Wish { user, session: 0, lower: &bound(permission), upper, objectives: AIMS };
                plain::ask(image, ledger, &wish, answer, plain::Method::Kit)
            }
        }
    }

    fn do_by_kit(call: Call, image: &[u8], ledger: &mut [u8], user: u64, upper: &[u8], answer: &mut [u8]) -> u64 {
        match call {
            Call::Open => kit::open(Empty::Somewhere, image, ledger, user),
            Call::Close => kit::close(Empty::Somewhere, image, ledger, user, 0),
            Call::Show => kit::show(Empty::Somewhere, image, ledger, user, 0, answer),
            Call::Explain(permission) => kit::explain(Empty::Somewhere, image, ledger, user, 0, permission),
            Call::Ask(permission) => {
                let wish = kit::Wish { user, session: 0, lower: &bound(permission), upper };
                kit::ask(Empty::Somewhere, image, ledger, &wish, AIMS, answer)
            }
            Call::ShortAsk(permission) => {
                let wish = kit::Wish { user, session: 0, lower: &bound(permission), upper };
                kit::short_ask(Empty::Somewhere, image, ledger, &wish, answer)
            }
        }
    }

    /// The same in plain C, which has open and ask.
    fn do_by_c(&mut self, call: Call) -> u64 {
        let at = LINE * self.user as usize;
        self.ledger[at..at + LINE].copy_from_slice(&self.line);
        let (image, ledger, user, upper) = (black_box(self.image), &mut self.ledger, self.user, &self.upper);
        match call {
            Call::Open => plain_c::open(image, ledger, user),
            Call::Ask(permission) => {
                let wish = plain::Wish { user, session: 0, lower: &bound(permission), upper, objectives: AIMS };
                plain_c::ask(image, ledger, &wish, &mut self.answer)
            }
            other => panic!("{other:?} is not in plain C"),
        }
    }

    /// Times a call beside plain C; both answer the same.
    fn row_beside_c(name: &str, desk: impl Fn() -> Self, call: Call, report: &mut Report) {
        let (mut first, mut second) = (desk(), desk());
        let (by_kit, by_c) = (first.do_by(call, true), second.do_by_c(call));
        assert_eq!((by_kit, &first.ledger, first.answer), (by_c, &second.ledger, second.answer), "{name}");
        assert_eq!(by_kit % 256, 0, "{name}: it is done");
        let mut kit = || {
            black_box(first.do_by(call, true));
        };
        let mut plain = || {
            black_box(second.do_by_c(call));
        };
        report.row(name, &mut kit, &mut plain);
    }

    /// Times a call of this user, which the kit does, on a desk and its copy; both answer the same.
    fn row(name: &str, desk: impl Fn() -> Self, call: Call, report: &mut Report) {
        let (mut first, mut second) = (desk(), desk());
        let (by_kit, by_plain) = (first.do_by(call, true), second.do_by(call, false));
        assert_eq!((by_kit, &first.ledger, first.answer), (by_plain, &second.ledger, second.answer), "{name}");
        assert_eq!(by_kit % 256, 0, "{name}: it is done");
        let mut kit = || {
            black_box(first.do_by(call, true));
        };
        let mut plain = || {
            black_box(second.do_by(call, false));
        };
        report.row(name, &mut kit, &mut plain);
    }
}

/// A line with session 0 open and these roles active in it.
fn line(roles: u64) -> [u8; LINE] {
    let mut line = [0; LINE];
    line[0] = 1;
    for at in [8, 16, 24] {
        line[at..at + 8].copy_from_slice(&roles.to_le_bytes());
    }
    line
}

/// The lowest roles that a user of an image may activate, no more than three: few enough for every exclusion of the
/// largest image.
fn some_own_roles(image: &[u8], user: usize) -> u64 {
    let policy = nutrameza_tests::solver::image::judge(image).expect("the image is accepted");
    policy.authorized(user).iter().take(3).map(|role| 1 << role).sum()
}

/// The highest permission that a set of roles carries in an image.
fn last_carried(image: &[u8], roles: u64) -> u64 {
    let policy = nutrameza_tests::solver::image::judge(image).expect("the image is accepted");
    let last = |role: usize| policy.carried_by(role).into_iter().max();
    (0..policy.roles).filter(|role| roles >> role & 1 == 1).filter_map(last).max().expect("the roles carry a permission") as u64
}

/// Check, open and ask beside plain C.
pub fn beside_c(report: &mut Report) {
    println!();
    println!("{:<44} {:>12} {:>12} {:>7}", "job, beside plain C (cc -O2)", "kit ns", "plain C ns", "ratio");
    for image in images::in_all_orders() {
        let bytes = &image.bytes;
        assert_eq!(plain_c::check(bytes), 0, "{}", image.name);
        let mut kit = || {
            black_box(kit::check(Empty::Null, black_box(bytes)));
        };
        let mut plain = || {
            black_box(plain_c::check(black_box(bytes)));
        };
        report.row(&format!("C, check, {}", image.name), &mut kit, &mut plain);
        let roles = if image.users == 1 { 1 } else { some_own_roles(bytes, image.users - 1) };
        for call in [Call::Open, Call::Ask(last_carried(bytes, roles))] {
            let name = format!("C, {}, {}", call.name(), image.name);
            Desk::row_beside_c(&name, || Desk::new(bytes, image.users, line(roles)), call, report);
        }
    }
}

/// The calls of the last user, who has some roles active.
fn calls(report: &mut Report) {
    let each = |carried| vec![Call::Open, Call::Close, Call::Show, Call::Explain(carried), Call::Ask(carried)];
    for image in images::in_all_orders() {
        let roles = if image.users == 1 { 1 } else { some_own_roles(&image.bytes, image.users - 1) };
        let carried = last_carried(&image.bytes, roles);
        calls_on(&image, roles, each(carried), report);
    }
    // 31 is carried by the role that stands below all others
    let deep = images::deep_image();
    let over_deep = vec![Call::Open, Call::Explain(31), Call::Ask(31), Call::ShortAsk(31)];
    calls_on(&deep, some_own_roles(&deep.bytes, 63), over_deep, report);
    let above = images::over_fifteen();
    calls_on(&above, some_own_roles(&above.bytes, 63), vec![Call::Open, Call::Show, Call::Ask(31)], report);
}

fn calls_on(image: &Image, roles: u64, calls: Vec<Call>, report: &mut Report) {
    for call in calls {
        let name = format!("{}, {}", call.name(), image.name);
        Desk::row(&name, || Desk::new(&image.bytes, image.users, line(roles)), call, report);
    }
}

/// A ledger of lines of so many bytes for every user of an image, each with sessions 0 and 3 open and roles active;
/// one user has role 0.
fn ledger(image: &[u8], users: usize, size: usize) -> Vec<u8> {
    let mut ledger = vec![0; size * users];
    for (user, line) in ledger.chunks_exact_mut(size).enumerate() {
        let roles = if users == 1 { 1 } else { some_own_roles(image, user) }.to_le_bytes();
        line[0] = 9;
        for at in [8, 16, 24, 64, 72] {
            line[at..at + 8].copy_from_slice(&roles);
        }
    }
    ledger
}

/// A move by the kit or by plain Rust.
fn carry(way: Move, kit: bool, image: &[u8], old: &[u8], new: &mut [u8]) -> u64 {
    match (way, kit) {
        (_, true) => kit::carry(Empty::Somewhere, way, image, old, new),
        (Move::Widen, false) => plain::widen(image, old, new),
        (Move::Narrow, false) => plain::narrow(image, old, new),
    }
}

/// Both moves: the ledgers of one user, and of 64 under the largest image and under a small one.
fn moves(report: &mut Report) {
    let few = Image { name: "145 words", ..images::over_fifteen() };
    for image in images::in_all_orders().into_iter().chain([few]) {
        for way in BOTH {
            let (from, to) = way.lines();
            let old = ledger(&image.bytes, image.users, from);
            let (mut first, mut second) = (vec![7; to * image.users], vec![9; to * image.users]);
            let by_kit = carry(way, true, &image.bytes, &old, &mut first);
            let by_plain = carry(way, false, &image.bytes, &old, &mut second);
            assert_eq!((by_kit, by_plain, &first), (0, 0, &second), "{way:?}");
            let mut kit = || {
                black_box(carry(way, true, black_box(&image.bytes), &old, &mut first));
            };
            let mut plain = || {
                black_box(carry(way, false, black_box(&image.bytes), &old, &mut second));
            };
            let name = if way == Move::Widen { "widen" } else { "narrow" };
            let users = if image.users == 1 { "1 user" } else { "64 users" };
            report.row(&format!("{name}, {users}, {}", image.name), &mut kit, &mut plain);
        }
    }
}

/// Asks of the last of 64 users who all have two sessions with active roles, without limits and with them.
fn limits(report: &mut Report) {
    // repeats, for the limits to stand in their place
    let few = images::padded(&images::over_fifteen().bytes, 16);
    let large = images::largest(true);
    let images = [
        ("64 users, 161 words", few.clone(), 31),
        ("64 users, 161 words, 16 limits", images::limited(&few, 16), 31),
        ("64 users, 4,096 words", large.clone(), last_carried(&large, some_own_roles(&large, 63))),
        ("64 users, 4,096 words, 64 limits", images::limited(&large, 64), last_carried(&large, some_own_roles(&large, 63))),
    ];
    for (size, image, permission) in images {
        let ledger = ledger(&image, 64, LINE);
        let line = std::array::from_fn(|place| ledger[63 * LINE + place]);
        let upper = all_permissions(&image);
        let desk = || Desk { image: &image, ledger: ledger.clone(), line, user: 63, upper, answer: [0; 40] };
        Desk::row(&format!("ask, {size}"), desk, Call::Ask(permission), report);
    }
}
