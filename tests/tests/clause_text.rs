//! The solver's clause text, the reader and the small PMaxSAT program, before the kit is held against them: the
//! examples of docs/CLAUSES.md byte for byte, texts that are not in order, and what the text of thousands of asks says.

use nutrameza_tests::compare::spread;
use nutrameza_tests::gen::{call, ledger, policy, Rng};
use nutrameza_tests::meaning::meant;
use nutrameza_tests::solver::calls::read_permissions;
use nutrameza_tests::solver::choice::Request;
use nutrameza_tests::solver::clauses::clauses;
use nutrameza_tests::solver::image::judge;
use nutrameza_tests::solver::line::{Line, LINE};
use nutrameza_tests::solver::policy::{Kind, Policy, Roles};
use nutrameza_tests::solver::wcnf::read;
use nutrameza_tests::ward;

/// The text blocks of docs/CLAUSES.md.
fn listed() -> Vec<&'static str> {
    let page = include_str!("../../docs/CLAUSES.md");
    page.split("```wcnf\n").skip(1).map(|block| block.split("```").next().expect("a block ends")).collect()
}

/// The text of an ask of user 0 in session 0, with permissions below 64.
fn text(image: &[u8], line: &Line, lower: u64, upper: u64, objectives: (u64, u64)) -> String {
    let policy = judge(image).expect("the image is accepted");
    let (lower, upper) = (read_permissions(&ward::bound(lower)), read_permissions(&ward::bound(upper)));
    let request = Request { policy: &policy, user: 0, line, session: 0, barred: Roles::new(), lower, upper, objectives };
    String::from_utf8(clauses(&request).text()).expect("the text is ASCII")
}

/// A line with session 0 open and nothing active, now or ever.
fn opened() -> Line {
    let mut bytes = [0; LINE];
    bytes[0] = 1;
    Line::read(&bytes)
}

#[test]
fn writes_the_text_of_image_a_as_it_is_listed() {
    let text = text(&ward::image_a(), &opened(), 0x2, 0xf, (1, 1));
    assert_eq!(text, listed()[0]);
    assert_eq!(text.len(), 258);
}

#[test]
fn writes_the_text_of_reduced_exclusions_as_it_is_listed() {
    let mut line = opened();
    line.history[1] = true;
    line.sessions[0].history[1] = true;
    assert_eq!(text(&ward::image_reduced(), &line, 0x1, 0x3, (2, 0)), listed()[1]);
}

#[test]
fn writes_no_soft_clause_without_an_aim_and_then_a_top_weight_of_1() {
    let text = text(&ward::image_a(), &opened(), 0x2, 0xf, (0, 0));
    assert!(text.starts_with("p wcnf 11 19 1\n1 -1 3 0\n"));
    assert_eq!(text.lines().count(), 20);
}

#[test]
fn an_exclusion_with_one_member_left_has_two_clauses() {
    let mut line = opened();
    line.history[0] = true;
    let text = text(&ward::image_a_with(3, 2), &line, 0, 0x1f, (0, 0));
    assert!(text.starts_with("p wcnf 8 13 1\n") && text.ends_with("\n1 -2 8 0\n1 -8 0\n"));
}

#[test]
fn reads_back_what_is_listed() {
    for (block, numbers) in listed().iter().zip([(11, 19, 7, 18), (18, 30, 3, 16)]) {
        let text = read(block.as_bytes()).expect("it is in order");
        assert_eq!((text.variables, text.hard.len(), text.soft.len(), text.top), numbers);
    }
}

#[test]
fn reads_no_text_that_is_not_in_order() {
    let good = "p wcnf 2 2 3\n3 -1 2 0\n2 1 0\n";
    assert!(read(good.as_bytes()).is_ok());
    let wrong = [
        ("", ""),
        ("\n2 1 0\n", "\n2 1 0"),
        ("p wcnf", "p cnf"),
        ("p wcnf", " p wcnf"),
        ("wcnf 2 2 3", "wcnf 2 2 3 "),
        ("wcnf 2 2 3", "wcnf 2 3 3"),
        ("wcnf 2 2 3", "wcnf 1 2 3"),
        ("wcnf 2 2 3", "wcnf 2 2 4"),
        ("wcnf 2 2 3", "wcnf 02 2 3"),
        ("p wcnf", "c a comment\np wcnf"),
        ("3 -1 2 0", "3 -1  2 0"),
        ("3 -1 2 0", "3 -1 2"),
        ("3 -1 2 0", "3 -1 2 0 "),
        ("3 -1 2 0", "3 -1 +2 0"),
        ("3 -1 2 0", "3 -0 2 0"),
        ("3 -1 2 0", "3 -1 0 2 0"),
        ("3 -1 2 0", "3 -3 2 0"),
        ("3 -1 2 0", "2 1 0"),
        ("3 -1 2 0\n2 1 0", "2 1 0\n3 -1 2 0"),
        ("2 1 0\n", "2 1 0\n\n"),
        ("2 1 0\n", "2 1 0\r\n"),
    ];
    for (old, new) in wrong {
        let text = if old.is_empty() { String::new() } else { good.replacen(old, new, 1) };
        assert!(read(text.as_bytes()).is_err(), "{text:?} is read");
    }
}

#[test]
fn finds_models_and_the_least_weight_of_small_texts() {
    let of = |text: &str| read(text.as_bytes()).expect("it is in order");
    // one of three, not the first with the third
    let one = of("p wcnf 3 5 9\n9 1 2 3 0\n9 -1 -3 0\n1 -1 0\n3 -2 0\n4 -3 0\n");
    let [no, yes] = [false, true];
    assert_eq!(one.models(3), [vec![no, no, yes], vec![no, yes, no], vec![no, yes, yes], vec![yes, no, no], vec![yes, yes, no]]);
    assert_eq!(one.models(1), [vec![no], vec![yes]]);
    assert_eq!(one.least(), Some((1, vec![yes, no, no])));
    // four variables in two holes: no model
    let none = of("p wcnf 2 4 1\n1 1 2 0\n1 -1 2 0\n1 1 -2 0\n1 -1 -2 0\n");
    assert!(none.models(2).is_empty() && none.least().is_none());
    let contradiction = of("p wcnf 1 2 1\n1 1 0\n1 -1 0\n");
    assert!(contradiction.models(1).is_empty() && contradiction.least().is_none());
    let free = of("p wcnf 2 0 1\n");
    assert_eq!((free.models(2).len(), free.least()), (4, Some((0, vec![no, no]))));
}

/// A user with an open session in this ledger, and the session.
fn asker(rng: &mut Rng, policy: &Policy, ledger: &[u8]) -> Option<(usize, usize)> {
    let user = rng.place(policy.users);
    let open: Vec<usize> = (0..8).filter(|session| ledger[LINE * user] >> session & 1 == 1).collect();
    (!open.is_empty()).then(|| (user, rng.pick(&open)))
}

#[test]
fn says_what_is_admissible_and_what_is_best() {
    let tally = spread("clause texts", 6_000, |rng, tally| {
        let size = if rng.one_in(4) { policy::TINY } else { policy::SMALL };
        let (image, policy) = policy::policy(rng, size).built();
        let ledger = ledger::ledger(rng, &policy, 0);
        let Some((user, session)) = asker(rng, &policy, &ledger) else { return };
        let line = Line::read(&ledger[LINE * user..LINE * (user + 1)]);
        let (lower, upper) = call::bounds(rng, &policy, user);
        if lower.len() != 32 || upper.len() != 32 {
            return;
        }
        let (lower, upper) = (read_permissions(&lower), read_permissions(&upper));
        if (0..256).any(|permission| (permission >= policy.permissions || !upper[permission]) && lower[permission]) {
            return;
        }
        let (objectives, barring) = ((rng.below(3), rng.below(3)), rng.one_in(3));
        let barred: Roles = (0..policy.roles).filter(|_| barring && rng.one_in(3)).collect();
        let request = Request { policy: &policy, user, line: &line, session, barred, lower, upper, objectives };
        let written = clauses(&request);
        for (exclusion, count) in policy.exclusions.iter().zip(&written.of_exclusions) {
            assert!(*count <= 2 * exclusion.members.len() * exclusion.n);
            tally.see(match exclusion.kind {
                Kind::SessionActive => "kind 0",
                Kind::UserActive => "kind 1",
                Kind::SessionHistory => "kind 2",
                Kind::UserHistory => "kind 3",
            });
        }
        let meant = meant(&written.text(), &request).unwrap_or_else(|text| panic!("{text}: {request:?} under {image:02x?}"));
        tally.see(if meant.admissible > 0 { "some set" } else { "no set" });
        tally.see(if barring { "barred roles" } else { "no barred roles" });
        tally.see(&format!("aims {} {}", objectives.0, objectives.1));
    });
    tally.expect(500, &["some set", "no set", "kind 0", "kind 1", "kind 2", "kind 3", "barred roles", "no barred roles"]);
}
