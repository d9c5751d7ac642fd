//! The check through the C interface: each refusal by name, then images by the hundred thousand beside the solver's
//! judge.

use nutrameza_tests::compare::{check, spread, Tally};
use nutrameza_tests::gen::damage;
use nutrameza_tests::kit::{self, Empty};
use nutrameza_tests::{ward, words};

/// The check's answer to words, balanced first: number and place.
fn answer(mut list: Vec<u32>) -> (u64, u64) {
    words::rebalance(&mut list);
    number_and_place(&words::bytes(&list))
}

fn number_and_place(image: &[u8]) -> (u64, u64) {
    check(image, &mut Tally::default()).ok();
    let returned = kit::check(Empty::Null, image);
    (returned % 256, returned / 256)
}

/// Image A with words put in before its end.
fn a_with(more: &[u32]) -> Vec<u32> {
    let mut list = ward::A.to_vec();
    list.splice(12..12, more.iter().copied());
    list
}

/// A head of 64 users, 64 roles and 256 permissions, these words and an end.
fn large_with(more: impl IntoIterator<Item = u32>) -> Vec<u32> {
    let mut list = vec![words::head(64, 64, 256)];
    list.extend(more);
    words::closed(list)
}

#[test]
fn accepts_the_ward_example() {
    assert_eq!(kit::check(Empty::Null, &ward::image_a()), 0);
}

#[test]
fn accepts_the_smallest_and_the_largest_image() {
    assert_eq!(answer(vec![words::head(1, 1, 1), 0xF000_0000]), (0, 0));
    assert_eq!(answer(large_with((0..4094).map(|n| words::grant(n % 64, n % 256)))), (0, 0));
}

#[test]
fn refuses_null_with_no_bytes() {
    assert_eq!(kit::check(Empty::Null, &[]), 1);
    assert_eq!(kit::check(Empty::Somewhere, &[]), 1);
}

#[test]
fn refuses_lengths_that_are_short_long_or_no_multiple_of_four() {
    let image = words::bytes(&large_with((0..4095).map(|n| words::grant(n % 64, 0))));
    assert_eq!(number_and_place(&image), (1, 0));
    for length in 0..=52 {
        let refused = number_and_place(&ward::image_a()[..length]);
        assert_eq!(refused.0 == 1, length < 8 || length % 4 != 0, "{length} bytes");
    }
}

#[test]
fn refuses_every_head_outside_its_ranges() {
    for (users, roles, permissions) in
        [(0, 1, 1), (65, 1, 1), (127, 1, 1), (1, 0, 1), (1, 65, 1), (1, 1, 0), (1, 1, 257), (1, 1, 511)]
    {
        assert_eq!(answer(vec![words::head(users, roles, permissions), 0xF000_0000]), (2, 0));
    }
    for bit in 0..5 {
        assert_eq!(answer(vec![words::head(1, 1, 1) + (1 << bit), 0xF000_0000]), (2, 0));
    }
    for kind in (0..16).filter(|kind| *kind != 1) {
        assert_eq!(answer(vec![words::head(1, 1, 1) % (1 << 28) + (kind << 28), 0xF000_0000]), (2, 0));
    }
}

#[test]
fn refuses_kinds_that_may_not_stand_after_the_head() {
    for kind in [0u32, 1, 6, 8, 9, 10, 11, 12, 13, 14, 15] {
        assert_eq!(answer(a_with(&[kind << 28])), (3, 12), "kind {kind}");
    }
}

#[test]
fn refuses_a_missing_member_and_a_missing_end() {
    let mut list = ward::A.to_vec();
    list.remove(10);
    assert_eq!(answer(list), (3, 11));
    assert_eq!(answer(ward::A[..12].to_vec()), (3, 11));
    assert_eq!(answer(a_with(&[words::exclusion_head(0, 2, 2)])), (3, 13));
}

#[test]
fn refuses_each_spare_bit() {
    let mut list = a_with(&[words::senior(0, 1), words::limit(1, 2)]);
    for (place, bits) in [(1, 16), (3, 14), (9, 12), (10, 22), (12, 16), (13, 13)] {
        for bit in 0..bits {
            list[place] ^= 1 << bit;
            assert_eq!(answer(list.clone()), (4, place as u64));
            list[place] ^= 1 << bit;
        }
    }
}

#[test]
fn refuses_numbers_at_or_above_the_heads() {
    let wrong = [
        words::assignment(1, 0),
        words::assignment(0, 2),
        words::grant(2, 0),
        words::grant(0, 5),
        words::senior(0, 2),
        words::senior(2, 0),
        words::exclusion_head(0, 2, 0),
        words::exclusion_head(0, 2, 3),
        words::exclusion_head(0, 0, 2),
        words::exclusion_head(0, 2, 1),
        words::limit(2, 2),
        words::limit(63, 256),
    ];
    for word in wrong {
        assert_eq!(answer(a_with(&[word])), (5, 12), "{word:08X}");
    }
    assert_eq!(answer(a_with(&words::exclusion(0, 2, &[2, 0]))), (5, 13));
}

/// The check's answer where an exclusion of these numbers, with these spare bits, stands behind `before` others in a
/// policy of three roles; the place is counted from the exclusion's word, which is 0.
fn exclusion_behind(before: usize, spare: u32, n: u32, size: u32) -> (u64, u64) {
    let mut list = vec![words::head(1, 3, 1)];
    list.extend(words::exclusion(3, 2, &[0, 1]).repeat(before));
    let word = list.len();
    list.extend(words::exclusion((n + size) % 4, n, &(0..size).collect::<Vec<u32>>()));
    list[word] |= spare;
    let (number, place) = answer(words::closed(list));
    (number, if number == 0 { 0 } else { place - word as u64 })
}

#[test]
fn refuses_a_limit_of_one_as_one_of_none_after_spare_bits_and_before_a_thirty_third_exclusion() {
    for (size, n) in (0..5).flat_map(|size| (0..5).map(move |n| (size, n))) {
        let passes = [(2, 2), (3, 2), (3, 3)].contains(&(size, n));
        for before in [0, 31, 32] {
            let number = if !passes {
                5
            } else if before == 32 {
                7
            } else {
                0
            };
            assert_eq!(exclusion_behind(before, 0, n, size), (number, 0), "n {n}, m {size}, {before} before");
            for spare in [1, 1 << 11] {
                assert_eq!(exclusion_behind(before, spare, n, size), (4, 0), "n {n}, m {size}, spare {spare}");
            }
        }
    }
}

#[test]
fn accepts_a_roles_limit_from_2_to_256_and_no_other() {
    for (role, limit) in (0..3).flat_map(|role| (0..512).map(move |limit| (role, limit))) {
        let passes = role < 2 && (2..=256).contains(&limit);
        assert_eq!(answer(a_with(&[words::limit(role, limit)])), if passes { (0, 0) } else { (5, 12) }, "{role} below {limit}");
    }
}

#[test]
fn a_limit_may_stand_in_every_place_but_the_first_the_last_and_those_of_members() {
    for place in 0..=ward::A.len() {
        let mut list = ward::A.to_vec();
        list.insert(place, words::limit(1, 2));
        let expected = match place {
            0 => (2, 0),
            10..=11 | 13 => (3, if place == 13 { 12 } else { place as u64 }),
            _ => (0, 0),
        };
        assert_eq!(answer(list), expected, "place {place}");
    }
}

#[test]
fn a_limit_as_the_last_word_or_where_a_member_is_due_is_refused_before_its_spare_bits_and_those_before_its_numbers() {
    let last = |word| answer([&ward::A[..12], &[word]].concat());
    let due = |word| answer([&ward::A[..10], &[word], &ward::A[10..]].concat());
    for word in [words::limit(1, 2), words::limit(2, 1) + 1] {
        assert_eq!((last(word), due(word)), ((3, 12), (3, 10)));
    }
    for word in [words::limit(2, 2), words::limit(0, 1), words::limit(63, 511)] {
        assert_eq!((answer(a_with(&[word])), answer(a_with(&[word + (1 << 12)]))), ((5, 12), (4, 12)));
    }
}

#[test]
fn limits_repeat_without_end_and_count_towards_the_words_alone() {
    assert_eq!(answer(large_with((0..4094).map(|n| words::limit(n % 64, 2 + n % 255)))), (0, 0));
    assert_eq!(answer(large_with((0..4095).map(|n| words::limit(n % 64, 2)))), (1, 0));
}

#[test]
fn an_image_of_one_role_has_no_exclusion() {
    for (n, size) in [(0, 0), (0, 1), (1, 0), (1, 1), (2, 1), (1, 2), (2, 2)] {
        let list = vec![words::head(1, 1, 1), words::exclusion_head(0, n, size), words::member(0)];
        assert_eq!(answer(words::closed(list)), (5, 1), "n {n}, m {size}");
    }
}

#[test]
fn accepts_a_limit_of_all_members_and_refuses_one_above() {
    assert_eq!(number_and_place(&ward::image_a_with(1, 2)), (0, 0));
    assert_eq!(number_and_place(&ward::image_a_with(1, 3)), (5, 9));
}

#[test]
fn refuses_a_repeated_member_and_a_role_over_itself() {
    assert_eq!(answer(a_with(&words::exclusion(2, 2, &[1, 1]))), (6, 14));
    assert_eq!(answer(a_with(&[words::senior(1, 1)])), (6, 12));
}

#[test]
fn accepts_a_repeated_senior_word_and_refuses_its_reverse() {
    assert_eq!(answer(a_with(&[words::senior(0, 1), words::senior(0, 1)])), (0, 0));
    assert_eq!(answer(a_with(&[words::senior(0, 1), words::senior(1, 0), words::senior(0, 1)])), (22, 0));
}

#[test]
fn the_same_member_may_stand_in_two_exclusions() {
    let twice = [words::exclusion(0, 2, &[1, 0]), words::exclusion(0, 2, &[1, 0])].concat();
    assert_eq!(answer(a_with(&twice)), (0, 0));
}

#[test]
fn accepts_sixteen_roles_and_refuses_a_seventeenth_role() {
    assert_eq!(number_and_place(&ward::roles_of_one_user(16)), (0, 0));
    assert_eq!(number_and_place(&ward::roles_of_one_user(17)), (7, 17));
}

#[test]
fn repeated_assignments_do_not_crowd() {
    let repeated = (0..640).map(|n| words::assignment(63, n % 16));
    assert_eq!(answer(large_with(repeated.clone())), (0, 0));
    assert_eq!(answer(large_with(repeated.chain([words::assignment(62, 16), words::assignment(63, 16)]))), (7, 642));
}

#[test]
fn accepts_thirty_two_exclusions_and_refuses_a_thirty_third() {
    let many = |count| large_with((0..count).flat_map(|_| words::exclusion(3, 2, &[63, 0])));
    assert_eq!(answer(many(32)), (0, 0));
    assert_eq!(answer(many(33)), (7, 97));
}

#[test]
fn refuses_each_bit_out_of_balance() {
    for bit in 0..28 {
        let mut list = ward::A;
        list[12] ^= 1 << bit;
        assert_eq!(number_and_place(&words::bytes(&list)), (8, 12));
    }
}

#[test]
fn judges_three_hundred_thousand_images_as_the_solver_does() {
    let tally = spread("check", 300_000, |rng, tally| {
        check(&damage::image(rng), tally).ok();
    });
    tally.expect(10_000, &["0"]);
    tally.expect(4_000, &["1", "2", "3", "4", "5", "6", "7", "8", "22", "23"]);
}
