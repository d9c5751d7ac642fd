//! Hierarchies for the loops: none, one and several, apart and with shared roles, roles above them, many shortest
//! chains. Hierarchies without a loop in which users reach about 16 roles, in several ways.

use super::policy::Draft;
use super::Rng;
use crate::words;

/// A policy of senior words mostly, with loops or without, in which no user reaches more than 16 roles.
pub fn hierarchy(rng: &mut Rng) -> Draft {
    let most = rng.pick(&[2, 4, 6, 8, 12, 20, 40, 64]);
    let mut draft = Draft::blank(rng.from_to(1, 3) as u32, rng.from_to(2, most) as u32, 4);
    let roles = u64::from(draft.roles);
    if rng.one_in(2) {
        ordered(rng, &mut draft, roles);
    }
    match rng.below(8) {
        0..=1 => ordered(rng, &mut draft, 2 * roles),
        2..=3 => ring(rng, &mut draft),
        4 => (0..rng.from_to(2, 4)).for_each(|_| draft.tie(rng, 2)),
        5 => (0..rng.from_to(2, 4)).for_each(|_| ring(rng, &mut draft)),
        6 => either_way(rng, &mut draft, 2 * roles),
        _ => layers(rng, &mut draft),
    }
    if rng.one_in(3) {
        ordered(rng, &mut draft, roles);
    }
    for _ in 0..rng.below(4) {
        let role = rng.below(roles) as u32;
        draft.grant(rng, role);
        draft.assign(rng, 0, 1);
        draft.repeat(rng);
    }
    draft.fit(rng);
    rng.shuffle(&mut draft.entries);
    draft
}

/// Up to so many senior words that close no loop.
fn ordered(rng: &mut Rng, draft: &mut Draft, most: u64) {
    (0..rng.from_to(0, most)).for_each(|_| draft.order(rng));
}

/// A loop through any number of roles.
fn ring(rng: &mut Rng, draft: &mut Draft) {
    let count = rng.from_to(2, draft.roles.into()) as usize;
    draft.tie(rng, count);
}

/// Up to so many senior words, whatever they close.
fn either_way(rng: &mut Rng, draft: &mut Draft, most: u64) {
    for _ in 0..rng.from_to(1, most) {
        if let [senior, junior] = draft.some_roles(rng, 2)[..] {
            draft.entries.push(vec![words::senior(senior, junior)]);
        }
    }
}

/// A role over a layer of roles, each of them over each of the next layer, and so on; the last layer stands over the
/// role.
fn layers(rng: &mut Rng, draft: &mut Draft) {
    let count = draft.roles as usize;
    let roles = draft.some_roles(rng, count);
    let (top, below) = roles.split_at(1);
    let width = rng.from_to(1, below.len().min(4) as u64) as usize;
    let layers: Vec<&[u32]> = [top].into_iter().chain(below.chunks_exact(width)).collect();
    for (over, under) in layers.iter().zip(layers.iter().cycle().skip(1)) {
        for senior in *over {
            draft.entries.extend(under.iter().map(|junior| vec![words::senior(*senior, *junior)]));
        }
    }
}

/// A policy without a loop whose users reach 15 to 18 roles mostly, the roles of each by one of several routes.
pub fn reaching(rng: &mut Rng) -> Draft {
    let mut draft = Draft::blank(rng.from_to(1, 4) as u32, rng.from_to(18, 64) as u32, rng.from_to(4, 40) as u32);
    let count = draft.roles as usize;
    let roles = draft.some_roles(rng, count);
    for user in 0..draft.users {
        let from = rng.place(count - 17);
        let wide = if rng.one_in(4) { 16 } else { rng.pick(&[1, 8, 15, 15, 16, 16, 17, 17, 18]) };
        route(rng, &mut draft, user, &roles[from..(from + wide).min(count)]);
    }
    for role in roles {
        for _ in 0..rng.below(3) {
            draft.grant(rng, role);
        }
    }
    for _ in 0..rng.below(4) {
        draft.exclude(rng);
        draft.repeat(rng);
    }
    rng.shuffle(&mut draft.entries);
    draft
}

/// The user reaches at least these roles, a senior one before its juniors: all of them assigned, one over the others, a
/// chain, chains that overlap, or some assigned with the others below any of those before them.
fn route(rng: &mut Rng, draft: &mut Draft, user: u32, roles: &[u32]) {
    let over = |senior: usize, junior: usize| vec![words::senior(roles[senior], roles[junior])];
    let assigned = match rng.below(5) {
        0 => roles.len().min(16),
        1 => {
            draft.entries.extend((1..roles.len()).map(|junior| over(0, junior)));
            1
        }
        2 => {
            draft.entries.extend((1..roles.len()).map(|junior| over(junior - 1, junior)));
            1
        }
        3 => {
            let chains = rng.from_to(1, roles.len().min(4) as u64) as usize;
            draft.entries.extend((1..roles.len()).map(|junior| over(junior.saturating_sub(chains), junior)));
            draft.entries.extend((1..roles.len()).step_by(3).map(|junior| over(junior - 1, junior)));
            chains
        }
        _ => {
            let assigned = rng.from_to(1, roles.len().min(16) as u64) as usize;
            draft.entries.extend((assigned..roles.len()).map(|junior| over(rng.place(junior), junior)));
            assigned
        }
    };
    draft.entries.extend(roles[..assigned].iter().map(|role| vec![words::assignment(user, *role)]));
}
