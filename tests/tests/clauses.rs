//! The clause text through the C interface: the examples of docs/CLAUSES.md, each refusal in its order, buffers of
//! every length, then texts by the ten thousand beside the solver's, read back and held to the admissible sets.

use nutrameza_tests::compare::{play, refused_images, say, spread, step, unmoved_by, Played, Run};
use nutrameza_tests::gen::{call, damage, ledger, policy, Rng};
use nutrameza_tests::kit::{self, Empty};
use nutrameza_tests::meaning::meant;
use nutrameza_tests::solver::calls::{self, barred, read_permissions, Call};
use nutrameza_tests::solver::choice::Request;
use nutrameza_tests::solver::clauses::clauses;
use nutrameza_tests::solver::image::judge;
use nutrameza_tests::solver::line::{Line, LINE, SESSIONS};
use nutrameza_tests::solver::policy::Policy;
use nutrameza_tests::solver::wcnf;
use nutrameza_tests::{ward, words};

/// The numbers that a clause text can give: those of an ask up to 19.
const NUMBERS: [&str; 21] =
    ["0", "1", "2", "3", "4", "5", "6", "7", "8", "9", "10", "11", "12", "13", "15", "16", "17", "18", "19", "22", "23"];

/// A line with session 0 open and nothing active, now or ever: not to be written, where a write would end the test.
static OPENED: [u8; LINE] = {
    let mut line = [0; LINE];
    line[0] = 1;
    line
};

/// The clause text of an ask of user 0 for permissions below 64.
fn asked(session: u64, lower: u64, upper: u64, objectives: (u64, u64), room: usize) -> Call {
    Call::Clauses { user: 0, session, lower: ward::bound(lower), upper: ward::bound(upper), objectives, room }
}

/// Number and extra of one call on a ledger, by both.
fn answer(image: &[u8], ledger: &[u8], call: Call) -> (u64, u64) {
    let run = Run { image: image.to_vec(), ledger: ledger.to_vec(), calls: vec![call], empty: Empty::Null };
    let reply = play(&run).remove(0).reply;
    (reply.number, reply.extra)
}

/// The kit's text of a call, by both, in a buffer that it fills; none where the call is refused.
fn text_of(image: &[u8], ledger: &[u8], call: &Call) -> Option<Vec<u8>> {
    let (judged, mut ledger) = (judge(image), ledger.to_vec());
    let length = calls::play(&judged, &mut ledger, &with_room(call, usize::MAX)).extra as usize;
    let reply = step(&judged, image, &mut ledger, &with_room(call, length), Empty::Somewhere, 7);
    reply.unwrap_or_else(|text| panic!("{text}: {call:?} under {image:02x?} on {ledger:02x?}")).answer
}

/// The same of a call that is done.
fn written(image: &[u8], ledger: &[u8], call: &Call) -> Vec<u8> {
    text_of(image, ledger, call).expect("the call is done")
}

/// The same call with another buffer.
fn with_room(call: &Call, room: usize) -> Call {
    match call.clone() {
        Call::Clauses { user, session, lower, upper, objectives, .. } => {
            Call::Clauses { user, session, lower, upper, objectives, room }
        }
        other => panic!("{other:?} is no clause text"),
    }
}

/// The text blocks of docs/CLAUSES.md.
fn listed() -> Vec<&'static [u8]> {
    let page = include_str!("../../docs/CLAUSES.md");
    page.split("```wcnf\n").skip(1).map(|block| block.split("```").next().expect("a block ends").as_bytes()).collect()
}

/// The header's bound on the length of a text.
fn most_bytes() -> usize {
    let header = include_str!("../../include/nutrameza.h");
    let rest = header.split("#define NUTRAMEZA_MAX_CLAUSES_BYTES ").nth(1).expect("the header has the constant");
    rest.split_whitespace().next().and_then(|number| number.parse().ok()).expect("it is a number")
}

#[test]
fn writes_the_text_of_image_a_as_it_is_listed() {
    assert_eq!(written(&ward::image_a(), &OPENED, &asked(0, 0x2, 0xf, (1, 1), 0)), listed()[0]);
}

#[test]
fn writes_the_text_of_reduced_exclusions_as_it_is_listed() {
    let mut line = Line::read(&OPENED);
    line.history[1] = true;
    line.sessions[0].history[1] = true;
    let mut ledger = OPENED;
    line.write(&mut ledger);
    assert_eq!(written(&ward::image_reduced(), &ledger, &asked(0, 0x1, 0x3, (2, 0), 0)), listed()[1]);
}

#[test]
fn writes_only_where_the_whole_text_has_room_and_nothing_behind_it() {
    for room in (0..600).chain([4_096, 100_000]) {
        let expected = if room < 258 { (19, 0) } else { (0, 258) };
        assert_eq!(answer(&ward::image_a(), &OPENED, asked(0, 0x2, 0xf, (1, 1), room)), expected, "{room} bytes");
    }
}

#[test]
fn writes_the_same_into_a_buffer_of_the_headers_bound_and_around_it() {
    for room in [most_bytes() - 1, most_bytes(), most_bytes() + 1] {
        assert_eq!(answer(&ward::image_a(), &OPENED, asked(0, 0x2, 0xf, (1, 1), room)), (0, 258), "{room} bytes");
        assert_eq!(answer(&longest_image(0), &OPENED, asked(0, 0, 0, (1, 1), room)), (0, LONGEST as u64), "{room} bytes");
        assert_eq!(answer(&ward::image_a(), &OPENED, asked(0, 0x2, 0x1, (1, 1), room)), (17, 0), "{room} bytes");
    }
}

#[test]
fn reads_a_ledger_that_cannot_be_written() {
    let (lower, upper) = (ward::bound(2), ward::bound(0xf));
    let wish = kit::Wish { user: 0, session: 0, lower: &lower, upper: &upper };
    let mut out = vec![0; 258];
    assert_eq!(kit::clauses(Empty::Null, &ward::image_a(), &OPENED, &wish, (1, 1), &mut out), 256 * 258);
    assert_eq!(out, listed()[0]);
    assert_eq!(kit::clauses(Empty::Null, &ward::image_a(), &OPENED, &wish, (1, 1), &mut []), 19);
    assert_eq!(kit::clauses(Empty::Null, &ward::image_a(), &OPENED, &wish, (1, 3), &mut []), 18);
}

#[test]
fn refuses_in_the_order_of_the_register() {
    let image = ward::image_a();
    let mut unsound = OPENED;
    unsound[1] = 1;
    let (good, beyond, short) = (ward::bound(1), ward::bound(0x20), vec![0u8; 31]);
    let asked = |ledger: &[u8], user, session, lower: &Vec<u8>, upper: &Vec<u8>, aim| {
        let (lower, upper) = (lower.clone(), upper.clone());
        answer(&image, ledger, Call::Clauses { user, session, lower, upper, objectives: (aim, 0), room: 0 })
    };
    let none = SESSIONS as u64;
    assert_eq!(asked(&unsound[..LINE - 1], 1, none, &short, &beyond, 3), (9, 0));
    assert_eq!(asked(&unsound, 1, none, &short, &beyond, 3), (10, 0));
    assert_eq!(asked(&unsound, 0, none, &short, &beyond, 3), (11, 0));
    assert_eq!(asked(&OPENED, 0, none, &short, &beyond, 3), (12, 0));
    assert_eq!(asked(&OPENED, 0, 1, &short, &beyond, 3), (13, 0));
    assert_eq!(asked(&OPENED, 0, 0, &short, &beyond, 3), (15, 0));
    assert_eq!(asked(&OPENED, 0, 0, &beyond, &short, 3), (15, 0));
    assert_eq!(asked(&OPENED, 0, 0, &beyond, &good, 3), (16, 0));
    assert_eq!(asked(&OPENED, 0, 0, &good, &beyond, 3), (16, 0));
    assert_eq!(asked(&OPENED, 0, 0, &ward::bound(2), &good, 3), (17, 0));
    assert_eq!(asked(&OPENED, 0, 0, &good, &good, 3), (18, 0));
    assert_eq!(asked(&OPENED, 0, 0, &good, &good, 0), (19, 0));
}

#[test]
fn refuses_the_image_before_all_else() {
    refused_images(10, 4_000, |_, image, refused| {
        for room in [0, 4_096] {
            let call = Call::Clauses { user: 9, session: 9, lower: vec![], upper: vec![], objectives: (9, 9), room };
            assert_eq!(answer(image, &[0xFF; 3], call), refused, "{room} bytes");
        }
    });
}

#[test]
fn refuses_sessions_and_aims_up_to_the_largest_number() {
    let wild = [1 << 16, 1 << 32, (1 << 32) + 1, 1 << 60, 1 << 63, u64::MAX];
    for session in [SESSIONS as u64, 64, 255, 256].into_iter().chain(wild) {
        assert_eq!(answer(&ward::image_a(), &OPENED, asked(session, 1, 1, (0, 0), 4_096)), (12, 0), "{session}");
    }
    for aim in [3, 4, 255, 256, 257, 258].into_iter().chain(wild) {
        for objectives in [(aim, 0), (0, aim), (aim, aim)] {
            assert_eq!(answer(&ward::image_a(), &OPENED, asked(0, 1, 1, objectives, 4_096)), (18, 0), "{objectives:?}");
        }
    }
}

#[test]
fn writes_a_text_without_a_model_where_no_role_set_is_admissible() {
    // Doctor carries more than the upper bound
    let call = asked(0, 0x3, 0x3, (1, 1), 0);
    let text = wcnf::read(&written(&ward::image_a(), &OPENED, &call)).expect("the text is in order");
    assert!(text.models(7).is_empty() && text.least().is_none());
    let ask = Call::Ask { user: 0, session: 0, lower: ward::bound(3), upper: ward::bound(3), objectives: (1, 1), room: 40 };
    assert_eq!(answer(&ward::image_a(), &OPENED, ask), (20, 0));
}

#[test]
fn an_exclusion_is_reduced_by_what_its_kind_counts() {
    // role 0 is active in session 1, was active in session 0, and was active in a session that is closed
    let ledger = |active_elsewhere: bool, in_history: bool, ever: bool| {
        let mut line = Line::read(&OPENED);
        line.sessions[1].open = active_elsewhere;
        line.sessions[1].active[0] = active_elsewhere;
        line.sessions[1].history[0] = active_elsewhere;
        line.sessions[0].history[0] = in_history;
        line.history[0] = active_elsewhere || in_history || ever;
        let mut bytes = [0; LINE];
        line.write(&mut bytes);
        bytes
    };
    // the number of variables: four helpers while both members are left, one where one is left with a room of 1
    let variables = |kind, ledger: &[u8]| {
        let text = written(&ward::image_a_with(kind, 2), ledger, &asked(0, 0, 0x1f, (0, 0), 0));
        wcnf::read(&text).expect("the text is in order").variables
    };
    for (kind, reduced) in
        [(0, [false, false, false]), (1, [true, false, false]), (2, [false, true, false]), (3, [true, true, true])]
    {
        let ledgers = [ledger(true, false, false), ledger(false, true, false), ledger(false, false, true)];
        for (ledger, reduced) in ledgers.iter().zip(reduced) {
            assert_eq!(variables(kind, ledger), if reduced { 8 } else { 11 }, "kind {kind}");
        }
        assert_eq!(variables(kind, &OPENED), 11);
    }
}

#[test]
fn the_replaced_set_reduces_no_exclusion_of_active_roles() {
    let mut line = Line::read(&OPENED);
    line.sessions[0].active[0] = true;
    line.sessions[0].history[0] = true;
    line.history[0] = true;
    let mut ledger = OPENED;
    line.write(&mut ledger);
    for kind in [0, 1] {
        let image = ward::image_a_with(kind, 2);
        let call = asked(0, 0x2, 0xf, (1, 1), 0);
        assert_eq!(written(&image, &ledger, &call), written(&image, &OPENED, &call));
    }
}

#[test]
fn a_repeated_exclusion_is_counted_again_and_in_the_order_of_the_image() {
    let image = |exclusions: &[Vec<u32>]| {
        let mut list = vec![words::head(1, 3, 1)];
        list.extend(exclusions.concat());
        words::bytes(&words::closed(list))
    };
    let text = |exclusions: &[Vec<u32>]| {
        String::from_utf8(written(&image(exclusions), &OPENED, &asked(0, 0, 1, (0, 0), 0))).expect("the text is ASCII")
    };
    let (one, other) = (words::exclusion(0, 2, &[2, 0]), words::exclusion(0, 2, &[1, 0]));
    let counters = |text: String| text.lines().skip(5).map(str::to_string).collect::<Vec<_>>();
    assert_eq!(counters(text(&[one.clone()])), ["1 -1 5 0", "1 -3 7 0", "1 -5 7 0", "1 -6 8 0", "1 -3 -5 8 0", "1 -8 0"]);
    let twice = counters(text(&[one.clone(), one.clone()]));
    assert_eq!(twice[6..], ["1 -1 9 0", "1 -3 11 0", "1 -9 11 0", "1 -10 12 0", "1 -3 -9 12 0", "1 -12 0"]);
    assert_ne!(text(&[one.clone(), other.clone()]), text(&[other, one]));
}

/// The request that a clause text answers, of a call that passes the tests.
fn request<'a>(policy: &'a Policy, ledger: &[u8], line: &'a Line, call: &Call) -> Request<'a> {
    let Call::Clauses { user, session, lower, upper, objectives, .. } = call else { panic!("{call:?} is no clause text") };
    let (lower, upper) = (read_permissions(lower), read_permissions(upper));
    let (user, session, barred) = (*user as usize, *session as usize, barred(policy, LINE, ledger, call));
    Request { policy, user, line, session, barred, lower, upper, objectives: *objectives }
}

/// The line of the user that a call names.
fn line_of(ledger: &[u8], call: &Call) -> Line {
    Line::read(&ledger[LINE * call.user() as usize..LINE * (call.user() as usize + 1)])
}

#[test]
fn says_what_is_admissible_and_what_is_best() {
    let tally = spread("clause texts read back", 6_000, |rng, tally| {
        let draft = match rng.below(8) {
            0 => policy::policy(rng, policy::TINY),
            1 => policy::policy(rng, policy::Size { roles_of_a_user: 6, exclusions: 4, ..policy::MIDDLE }),
            2 => policy::overlapping(rng),
            3 => policy::limited(rng),
            _ => policy::policy(rng, policy::SMALL),
        };
        let (image, policy) = draft.built();
        let ledger = ledger::ledger(rng, &policy, 0);
        for _ in 0..3 {
            let call = call::clauses(rng, &policy, &ledger);
            let Some(text) = text_of(&image, &ledger, &call) else { continue };
            let line = line_of(&ledger, &call);
            let request = request(&policy, &ledger, &line, &call);
            let meant =
                meant(&text, &request).unwrap_or_else(|text| panic!("{text}: {call:?} under {image:02x?} on {ledger:02x?}"));
            tally.see("texts");
            tally.see(&format!("aims {} {}", request.objectives.0, request.objectives.1));
            tally.see(&format!("session {}", request.session));
            tally.see(if meant.admissible > 0 { "some set" } else { "no set" });
            if meant.tied > 1 {
                tally.see("ties");
            }
            for (exclusion, count) in policy.exclusions.iter().zip(clauses(&request).of_exclusions) {
                assert!(count <= 4 * exclusion.members.len() * exclusion.n);
                let whole = 2 + 2 * (exclusion.members.len() - 1) * exclusion.n;
                tally.see(&format!("kind {}{}", exclusion.kind as u8, if count < whole { ", reduced" } else { "" }));
            }
        }
    });
    tally.expect(5_000, &["texts"]);
    tally.expect(500, &["some set", "no set", "ties", "kind 1, reduced", "kind 2, reduced", "kind 3, reduced"]);
    assert_eq!(tally.count("kind 0, reduced"), 0);
    for session in 0..SESSIONS {
        tally.expect(200, &[&format!("session {session}")]);
    }
    for pair in 0..9 {
        tally.expect(400, &[&format!("aims {} {}", pair / 3, pair % 3)]);
    }
}

#[test]
fn answers_as_the_solver_does_on_every_kind_of_call() {
    let tally = spread("clause texts", 20_000, |rng, tally| {
        let size = rng.pick(&[policy::TINY, policy::SMALL, policy::SMALL, policy::MIDDLE]);
        let (mut image, policy) = policy::policy(rng, size).built();
        let damaged = rng.pick(&[0, 0, 0, 4]);
        let mut ledger = ledger::ledger(rng, &policy, damaged);
        if rng.one_in(16) {
            ledger::misfit(rng, &mut ledger);
        }
        if rng.one_in(12) {
            image = damage::image(rng);
        }
        let calls: Vec<Call> = (0..3).map(|_| call::clauses(rng, &policy, &ledger)).collect();
        let run = Run { image, ledger, calls, empty: rng.pick(&[Empty::Null, Empty::Somewhere]) };
        play(&run).iter().for_each(|played| tally.see_number(played.reply.number));
    });
    tally.expect(10_000, &["0"]);
    tally.expect(100, &NUMBERS);
    assert_eq!(tally.count("20"), 0);
}

#[test]
fn writes_the_texts_of_policies_of_every_size() {
    let tally = spread("clause texts of every size", 1_500, |rng, tally| {
        let draft = match rng.below(8) {
            0..=1 => policy::any(rng),
            2 => policy::crowded(rng, 32),
            3 => policy::policy(rng, policy::LARGE),
            4 => policy::limits(rng),
            _ => excluding(rng),
        };
        let image = words::bytes(&draft.words());
        let judged = judge(&image);
        let policy = judged.as_ref().expect("a policy in good order is accepted");
        let mut ledger = ledger::ledger(rng, policy, 0);
        let call = call::clauses(rng, policy, &ledger);
        let reply = calls::play(&judged, &mut ledger, &with_room(&call, usize::MAX));
        tally.see_number(reply.number);
        if reply.number != 0 {
            return;
        }
        let length = reply.extra as usize;
        assert!(length <= most_bytes());
        tally.see(match length {
            0..=9_999 => "below 10,000 bytes",
            10_000..=99_999 => "below 100,000 bytes",
            _ => "100,000 bytes and more",
        });
        let line = line_of(&ledger, &call);
        for (exclusion, count) in policy.exclusions.iter().zip(clauses(&request(policy, &ledger, &line, &call)).of_exclusions) {
            assert!(count <= 4 * exclusion.members.len() * exclusion.n);
        }
        for room in [length - 1, length, length + rng.place(100)] {
            let seen = step(&judged, &image, &mut ledger, &with_room(&call, room), Empty::Somewhere, rng.draw() as u8);
            let seen = seen.unwrap_or_else(|text| panic!("{text}: {call:?} on {room} bytes"));
            assert_eq!((seen.number, seen.extra), if room < length { (19, 0) } else { (0, length as u64) });
        }
    });
    tally.expect(100, &["below 10,000 bytes", "below 100,000 bytes", "100,000 bytes and more"]);
}

/// A large policy whose exclusions have many members: the helpers are many.
fn excluding(rng: &mut Rng) -> policy::Draft {
    let mut draft = policy::policy(rng, policy::Size { exclusions: 20, ..policy::WIDE });
    for _ in 0..if draft.roles > 1 { rng.below(13) } else { 0 } {
        let size = rng.from_to(2, draft.roles.into());
        let (kind, n) = (rng.below(4) as u32, rng.from_to(2, size) as u32);
        let members = draft.some_roles(rng, size as usize);
        draft.entries.push(words::exclusion(kind, n, &members));
    }
    rng.shuffle(&mut draft.entries);
    draft
}

/// The length of the longest text that these tests know.
const LONGEST: usize = 6_303_153;

/// The longest texts: every role carries every permission and is barred, 32 exclusions of all roles with n 64, no
/// permission allowed. The exclusions are of one kind.
fn longest_image(kind: u32) -> Vec<u8> {
    let mut list = vec![words::head(1, 64, 256)];
    list.extend((0..63).map(|role| words::senior(role, role + 1)));
    list.extend((0..256).map(|permission| words::grant(63, permission)));
    let all: Vec<u32> = (0..64).collect();
    (0..32).for_each(|_| list.extend(words::exclusion(kind, 64, &all)));
    words::bytes(&words::closed(list))
}

#[test]
fn the_longest_texts_fit_the_headers_bound() {
    let from = std::time::Instant::now();
    let all = vec![0xFF; 32];
    let mut lengths = Vec::new();
    for kind in 0..4 {
        for (lower, objectives) in [(ward::bound(0), (1, 1)), (ward::bound(0), (2, 2)), (all.clone(), (1, 1))] {
            let upper = lower.clone();
            let call = Call::Clauses { user: 0, session: 0, lower, upper, objectives, room: 0 };
            let text = written(&longest_image(kind), &OPENED, &call);
            assert!(text.starts_with(b"p wcnf 131392 275392 16705\n"));
            assert!(text.len() <= most_bytes(), "{} bytes", text.len());
            lengths.push(text.len());
        }
    }
    say(&format!("longest texts: {LONGEST} bytes of {}, {:.1} s", most_bytes(), from.elapsed().as_secs_f64()));
    assert_eq!(lengths.into_iter().max(), Some(LONGEST));
}

#[test]
fn the_longest_texts_fit_a_stack_of_64_kib() {
    let image = longest_image(1);
    let run = move || {
        let (lower, upper) = (ward::bound(0), ward::bound(0));
        let wish = kit::Wish { user: 0, session: 0, lower: &lower, upper: &upper };
        let mut out = vec![0; 8_000_000];
        let returned = kit::clauses(Empty::Somewhere, &image, &OPENED, &wish, (1, 1), &mut out);
        (returned % 256, out[..returned as usize / 256].iter().filter(|byte| **byte == b'\n').count())
    };
    let thread = std::thread::Builder::new().stack_size(64 * 1024).spawn(run).expect("a thread starts");
    assert_eq!(thread.join().expect("the call returns"), (0, 275_393));
}

/// The same words in the same order but for what is assigned to others than `user`: such words go, change and come in
/// anywhere.
fn others_in_place(rng: &mut Rng, draft: &policy::Draft, user: u32) -> policy::Draft {
    let mut other = draft.clone();
    other.entries.retain(|entry| entry[0] >> 28 != 2 || entry[0] >> 22 & 63 == user);
    for other_user in (0..draft.users).filter(|other| *other != user) {
        for role in draft.some_roles(rng, 3) {
            let at = rng.place(other.entries.len() + 1);
            other.entries.insert(at, vec![words::assignment(other_user, role)]);
        }
    }
    other
}

#[test]
fn each_user_is_told_the_same_text_whatever_the_others_do() {
    let tally = spread("clause texts in runs of several users", 3_000, |rng, tally| {
        let draft = policy::of_several(rng);
        let (image, policy) = draft.built();
        let first = ledger::ledger(rng, &policy, 8);
        let drawn = |rng: &mut Rng| match rng.one_in(3) {
            true => call::clauses(rng, &policy, &first),
            false => call::any(rng, &policy, &first),
        };
        let calls: Vec<Call> = (0..16).map(|_| drawn(rng)).collect();
        let together = play(&Run { image, ledger: first.clone(), calls: calls.clone(), empty: Empty::Null });
        for user in 0..policy.users {
            let image = words::bytes(&others_in_place(rng, &draft, user as u32).words());
            if judge(&image).is_err() {
                continue;
            }
            let mut ledger = ledger::ledger(rng, &policy, 2);
            ledger[LINE * user..LINE * (user + 1)].copy_from_slice(&first[LINE * user..LINE * (user + 1)]);
            let of_user = |call: &Call| call.user() == user as u64;
            let own = calls.iter().filter(|call| of_user(call)).cloned().collect();
            let alone = play(&Run { image, ledger, calls: own, empty: Empty::Null });
            let told: Vec<&Played> =
                calls.iter().zip(&together).filter(|(call, _)| of_user(call)).map(|(_, told)| told).collect();
            assert!(alone.iter().eq(told), "user {user} is told otherwise");
            let texts = calls.iter().filter(|call| of_user(call)).zip(&alone);
            let texts = texts.filter(|(call, played)| matches!(call, Call::Clauses { .. }) && played.reply.number == 0);
            texts.for_each(|_| tally.see("texts"));
        }
    });
    tally.expect(2_000, &["texts"]);
}

#[test]
fn a_clause_text_between_the_calls_changes_nothing() {
    let tally = spread("clause texts between calls", 2_000, |rng, tally| {
        let (image, policy) = policy::policy(rng, policy::SMALL).built();
        let ledger = ledger::ledger(rng, &policy, 8);
        let calls: Vec<Call> = (0..8).map(|_| call::any(rng, &policy, &ledger)).collect();
        let run = Run { image, ledger: ledger.clone(), calls, empty: Empty::Somewhere };
        let told = unmoved_by(rng, &run, |rng| call::clauses(rng, &policy, &ledger));
        told.iter().for_each(|played| tally.see_number(played.reply.number));
    });
    tally.expect(200, &["0", "20"]);
}

/// What clasp says of a text: the least weight, none where there is no model; or that it is not installed.
fn clasp(text: &[u8]) -> Option<Option<u64>> {
    let path =
        std::env::temp_dir().join(format!("nutrameza_clauses-{}-{:?}.wcnf", std::process::id(), std::thread::current().id()));
    std::fs::write(&path, text).expect("the text is written");
    let output = std::process::Command::new("clasp").arg("--verbose=1").arg(&path).output();
    std::fs::remove_file(&path).expect("the text is removed");
    let said = String::from_utf8_lossy(&output.ok()?.stdout).into_owned();
    let optimum = said.lines().filter_map(|line| line.strip_prefix("o ")).last().and_then(|weight| weight.trim().parse().ok());
    Some(if said.contains("UNSATISFIABLE") { None } else { Some(optimum.unwrap_or(0)) })
}

#[test]
fn clasp_finds_the_same_least_weight_where_it_is_installed() {
    if clasp(listed()[0]).is_none() {
        say("clasp is not installed: its optimum is not compared");
        return;
    }
    assert_eq!(clasp(listed()[0]), Some(Some(13)));
    let tally = spread("clasp", 300, |rng, tally| {
        let (image, policy) = policy::policy(rng, policy::MIDDLE).built();
        let ledger = ledger::ledger(rng, &policy, 0);
        let call = call::clauses(rng, &policy, &ledger);
        let Some(text) = text_of(&image, &ledger, &call) else { return };
        let line = line_of(&ledger, &call);
        let meant = meant(&text, &request(&policy, &ledger, &line, &call)).expect("the text says what it is to say");
        assert_eq!(clasp(&text), Some(meant.least));
        tally.see(if meant.least.is_some() { "some set" } else { "no set" });
    });
    tally.expect(20, &["some set", "no set"]);
}
