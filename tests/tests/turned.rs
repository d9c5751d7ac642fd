//! The closed grant table and tables turned, through the C interface: each of the 16,384 bits by itself, both orders of
//! doing and undoing, every length; tables of policies beside the solver, beside explain and beside show.

use nutrameza_tests::compare::{check, play, spread, table, turn, Run, Tally};
use nutrameza_tests::gen::policy::{self, Draft};
use nutrameza_tests::gen::{damage, hierarchy, Rng};
use nutrameza_tests::kit::{self, Empty};
use nutrameza_tests::solver::calls::Call;
use nutrameza_tests::solver::line::{Line, LINE};
use nutrameza_tests::solver::turned::{bit, Way, TABLE};
use nutrameza_tests::{ward, words};

/// The numbers that the table call can give.
const NUMBERS: [&str; 12] = ["0", "1", "2", "3", "4", "5", "6", "7", "8", "22", "23", "19"];

/// Lengths that are not those of a table.
const WRONG: [usize; 9] = [0, 1, 8, 32, 1024, 2047, 2049, 2056, 4096];

/// A table turned by the kit.
fn turned(way: Way, source: &[u8]) -> Vec<u8> {
    let mut target = vec![0xEE; TABLE];
    assert_eq!(kit::turn(Empty::Null, way, source, &mut target), 0);
    target
}

/// The table of an accepted image, by both.
fn table_of(image: &[u8]) -> Vec<u8> {
    let filled = table(image, TABLE, Empty::Null, 0x5A);
    assert_eq!((filled.number, filled.extra), (0, 0));
    filled.table.expect("a done call fills the table")
}

/// A table of zeros but for one bit.
fn single(width: usize, row: usize, bit: usize) -> Vec<u8> {
    let mut table = vec![0; TABLE];
    table[width * row + bit / 8] = 1 << (bit % 8);
    table
}

#[test]
fn every_single_bit_goes_from_row_r_bit_p_to_row_p_bit_r_and_back() {
    for role in 0..64 {
        for permission in 0..256 {
            let (by_role, by_permission) = (single(32, role, permission), single(8, permission, role));
            assert_eq!(turned(Way::Turn, &by_role), by_permission, "bit {permission} of row {role}");
            assert_eq!(turned(Way::Unturn, &by_permission), by_role, "bit {role} of row {permission}");
        }
    }
}

#[test]
fn every_single_bit_that_is_missing_goes_the_same_way() {
    let missing = |table: Vec<u8>| table.iter().map(|byte| !byte).collect::<Vec<u8>>();
    for (role, permission) in (0..64).flat_map(|role| (0..256).step_by(5).map(move |permission| (role, permission))) {
        let (by_role, by_permission) = (missing(single(32, role, permission)), missing(single(8, permission, role)));
        assert_eq!(turned(Way::Turn, &by_role), by_permission);
        assert_eq!(turned(Way::Unturn, &by_permission), by_role);
    }
}

/// Bytes of a table: at random, with few bits, with few zeros, in stripes.
fn bytes(rng: &mut Rng) -> Vec<u8> {
    match rng.below(5) {
        0 => rng.bytes(TABLE).iter().zip(rng.bytes(TABLE)).map(|(one, other)| one & other & 0x11).collect(),
        1 => rng.bytes(TABLE).iter().zip(rng.bytes(TABLE)).map(|(one, other)| one | other | 0x5B).collect(),
        2 => {
            let length = 1 << rng.below(7);
            rng.bytes(length).iter().copied().cycle().take(TABLE).collect()
        }
        _ => rng.bytes(TABLE),
    }
}

#[test]
fn any_bytes_come_back_in_both_orders() {
    let tally = spread("turned bytes", 5_000, |rng, tally| {
        let bytes = bytes(rng);
        let (empty, guard) = (rng.pick(&[Empty::Null, Empty::Somewhere]), rng.draw() as u8);
        for (way, back) in [(Way::Turn, Way::Unturn), (Way::Unturn, Way::Turn)] {
            let there = turn(way, &bytes, TABLE, empty, guard).table.expect("2,048 bytes are turned");
            let here = turn(back, &there, TABLE, empty, !guard).table.expect("2,048 bytes are turned back");
            assert_eq!(here, bytes);
            tally.see(if there == bytes { "as it was" } else { "another" });
        }
    });
    tally.expect(9_000, &["another"]);
}

#[test]
fn refuses_sources_and_targets_of_every_other_length_and_leaves_the_target() {
    for way in [Way::Turn, Way::Unturn] {
        for empty in [Empty::Null, Empty::Somewhere] {
            for length in WRONG {
                for (source, room) in [(length, TABLE), (TABLE, length), (length, length), (length, 2049), (2047, length)] {
                    let source: Vec<u8> = (0..source).map(|place| place as u8 ^ 0xC3).collect();
                    let filled = turn(way, &source, room, empty, length as u8 ^ 0x3C);
                    assert_eq!((filled.number, filled.extra, filled.table), (19, 0, None), "{} into {room}", source.len());
                }
            }
        }
    }
}

#[test]
fn the_table_of_image_a() {
    let mut expected = vec![0; TABLE];
    (expected[0], expected[32]) = (0x0F, 0x12);
    assert_eq!(table_of(&ward::image_a()), expected);
}

#[test]
fn a_row_has_what_the_role_and_all_roles_below_it_are_granted() {
    let mut list = vec![words::head(1, 64, 256)];
    list.extend((0..63).map(|role| words::senior(role, role + 1)));
    list.extend((0..64).map(|role| words::grant(role, 255 - role)));
    let table = table_of(&words::bytes(&words::closed(list)));
    for (role, permission) in (0..64).flat_map(|role| (0..256).map(move |permission| (role, permission))) {
        assert_eq!(bit(&table, 32, role, permission), permission >= 192 && permission <= 255 - role, "role {role}, {permission}");
    }
}

#[test]
fn rows_of_roles_that_the_policy_does_not_have_are_zero_whatever_the_target_held() {
    for roles in [1, 2, 31, 32, 63, 64] {
        let mut list = vec![words::head(1, roles, 256)];
        list.extend((0..256).map(|permission| words::grant(roles - 1, permission)));
        let image = words::bytes(&words::closed(list));
        let mut target = vec![0xFF; TABLE];
        assert_eq!(kit::table(Empty::Null, &image, &mut target), 0);
        let (rows, rest) = target.split_at(32 * roles as usize);
        assert!(rest.iter().all(|byte| *byte == 0), "{roles} roles");
        assert!(rows.ends_with(&[0xFF; 32]) && rows[..rows.len() - 32].iter().all(|byte| *byte == 0), "{roles} roles");
    }
}

/// Images that are refused by each number of the check.
fn refused() -> Vec<(u64, Vec<u8>)> {
    let with = |more: &[u32]| {
        let mut list = vec![words::head(2, 20, 5)];
        list.extend(more);
        words::closed(list)
    };
    let many = |word: fn(u32) -> u32| (0..17).map(word).collect::<Vec<u32>>();
    let mut unbalanced = with(&[]);
    unbalanced[1] ^= 1;
    let wide: Vec<u32> = many(|role| words::senior(19, role)).into_iter().chain([words::assignment(1, 19)]).collect();
    let lists = [
        (2, words::closed(vec![words::head(65, 1, 1)])),
        (3, with(&[8 << 28])),
        (4, with(&[words::grant(0, 0) + 1])),
        (5, with(&[words::grant(20, 0)])),
        (6, with(&[words::senior(3, 3)])),
        (7, with(&many(|role| words::assignment(0, role)))),
        (8, unbalanced),
        (22, with(&[words::senior(3, 4), words::senior(4, 3)])),
        (23, with(&wide)),
    ];
    let mut images: Vec<(u64, Vec<u8>)> = lists.into_iter().map(|(number, list)| (number, words::bytes(&list))).collect();
    images.extend([(1, Vec::new()), (1, ward::image_a()[..50].to_vec())]);
    images
}

#[test]
fn the_table_call_refuses_as_check_does_before_it_looks_at_the_target() {
    for (number, image) in refused() {
        assert_eq!(check(&image, &mut Tally::default()).err().map(|refused| refused.number), Some(number));
        for room in WRONG.into_iter().chain([TABLE]) {
            for empty in [Empty::Null, Empty::Somewhere] {
                assert_eq!(table(&image, room, empty, 0x77).number, number, "{room} bytes");
            }
        }
    }
}

#[test]
fn the_table_call_refuses_targets_of_every_other_length() {
    for room in WRONG.into_iter().chain([40, 64, 2000, 2040, 2047, 2049, 16384]) {
        for empty in [Empty::Null, Empty::Somewhere] {
            let filled = table(&ward::image_a(), room, empty, 0x21);
            assert_eq!((filled.number, filled.extra, filled.table), (19, 0, None), "{room} bytes");
        }
    }
}

#[test]
fn gives_the_tables_of_images_of_every_sort_as_the_solver_does() {
    let tally = spread("tables", 40_000, |rng, tally| {
        let image = match rng.below(4) {
            0 => words::bytes(&policy::any(rng).words()),
            1 => words::bytes(&hierarchy::hierarchy(rng).words()),
            _ => damage::image(rng),
        };
        let room = if rng.one_in(8) { rng.pick(&WRONG) } else { TABLE };
        let filled = table(&image, room, rng.pick(&[Empty::Null, Empty::Somewhere]), rng.draw() as u8);
        tally.see_number(filled.number);
        if let Some(rows) = filled.table {
            tally.see(if rows.iter().all(|byte| *byte == 0) { "empty tables" } else { "filled tables" });
            assert_eq!(turned(Way::Unturn, &turned(Way::Turn, &rows)), rows);
        }
    });
    tally.expect(200, &NUMBERS);
    tally.expect(5_000, &["filled tables"]);
}

/// A line whose session 0 is open with this role active.
fn line(role: usize) -> Vec<u8> {
    let mut line = Line::read(&[0; LINE]);
    line.sessions[0].open = true;
    line.sessions[0].active[role] = true;
    line.sessions[0].history[role] = true;
    line.history[role] = true;
    let mut bytes = vec![0; LINE];
    line.write(&mut bytes);
    bytes
}

/// The draft for one user, who has this role alone: no role carries more or less for it.
fn for_one(draft: &Draft, role: usize) -> Draft {
    let mut one = Draft { users: 1, ..draft.clone() };
    one.entries.retain(|entry| entry[0] >> 28 != 2);
    one.entries.push(vec![words::assignment(0, role as u32)]);
    one
}

#[test]
fn a_bit_of_the_table_is_set_exactly_if_explain_names_a_role_and_a_row_is_what_show_fills_in() {
    let tally = spread("tables and explains", 1_500, |rng, tally| {
        let size = rng.pick(&[policy::TINY, policy::SMALL, policy::SMALL, policy::MIDDLE]);
        let draft = policy::policy(rng, policy::Size { roles: size.roles.min(16), ..size });
        let rows = table_of(&words::bytes(&draft.words()));
        let by_permission = turned(Way::Turn, &rows);
        for role in 0..draft.roles as usize {
            let image = words::bytes(&for_one(&draft, role).words());
            assert_eq!(table_of(&image), rows, "who is assigned what does not matter");
            let explains = (0..draft.permissions.into()).map(|permission| Call::Explain { user: 0, session: 0, permission });
            let calls: Vec<Call> = explains.chain([Call::Show { user: 0, session: 0, room: 40 }]).collect();
            let mut played = play(&Run { image, ledger: line(role), calls, empty: Empty::Null });
            let shown = played.pop().expect("the show was played").reply.answer.expect("the show is done");
            assert_eq!(shown[8..], rows[32 * role..32 * (role + 1)]);
            for (permission, explained) in played.iter().enumerate() {
                let carries = bit(&rows, 32, role, permission);
                assert_eq!(explained.reply.number, if carries { 0 } else { 20 });
                assert_eq!(bit(&by_permission, 8, permission, role), carries);
                tally.see(if carries { "carried" } else { "not carried" });
            }
        }
    });
    tally.expect(5_000, &["carried", "not carried"]);
}
