//! Asks in the families of 003's tables 3 and 4, scaled into the format: one user of at most 16 roles, 256 permissions,
//! 32 exclusions. Each row is the sum over its parameter's values; 003's upper bound is all permissions.

use crate::plain::{self, Method, Wish};
use crate::report::Report;
use crate::timing;
use nutrameza_tests::gen::{policy, Rng};
use nutrameza_tests::kit::{self, Empty};
use nutrameza_tests::solver::line::LINE;
use nutrameza_tests::words;
use std::hint::black_box;

/// One problem of a family, by 003's parameters.
#[derive(Clone, Copy)]
struct Problem {
    roles: u32,
    permissions: u32,
    /// In how many roles each permission is.
    holders: u32,
    exclusions: u32,
    /// Members of an exclusion, and the n.
    members: usize,
    n: u32,
    requested: u32,
}

const BASE: Problem = Problem { roles: 16, permissions: 256, holders: 5, exclusions: 0, members: 8, n: 3, requested: 10 };

/// A family: its name in 003, its problems, and the pairs of aims that it is asked with.
struct Family {
    name: &'static str,
    problems: Vec<Problem>,
    aims: &'static [(u64, u64)],
}

/// An image and a lower bound for a problem.
fn posed(rng: &mut Rng, problem: Problem) -> (Vec<u8>, Vec<u8>) {
    let mut draft = policy::Draft::blank(1, problem.roles, problem.permissions);
    draft.entries.extend((0..problem.roles).map(|role| vec![words::assignment(0, role)]));
    for permission in 0..problem.permissions {
        for role in draft.some_roles(rng, problem.holders as usize) {
            draft.entries.push(vec![words::grant(role, permission)]);
        }
    }
    for _ in 0..problem.exclusions {
        let members = draft.some_roles(rng, problem.members);
        draft.entries.push(words::exclusion(0, problem.n.min(members.len() as u32), &members));
    }
    rng.shuffle(&mut draft.entries);
    let mut lower = vec![0u8; 32];
    let mut permissions: Vec<u32> = (0..problem.permissions).collect();
    rng.shuffle(&mut permissions);
    for permission in &permissions[..problem.requested as usize] {
        lower[*permission as usize / 8] |= 1 << (permission % 8);
    }
    (words::bytes(&draft.words()), lower)
}

/// The bytes of all permissions of a problem.
fn all(problem: Problem) -> Vec<u8> {
    let mut bytes = vec![0u8; 32];
    for permission in 0..problem.permissions as usize {
        bytes[permission / 8] |= 1 << (permission % 8);
    }
    bytes
}

/// A family whose parameter takes some values.
fn over<const N: usize>(
    name: &'static str,
    aims: &'static [(u64, u64)],
    values: [u32; N],
    problem: impl Fn(u32) -> Problem,
) -> Family {
    Family { name, problems: values.into_iter().map(problem).collect(), aims }
}

/// The families of table 3, for objectives without a 2.
fn table_3() -> Vec<Family> {
    const MIN: &[(u64, u64)] = &[(1, 0)];
    const LOW: &[(u64, u64)] = &[(1, 0), (0, 0), (1, 1), (0, 1)];
    vec![
        over("Plb_bigR", LOW, [2, 5, 10, 20, 50], |requested| Problem { requested, ..BASE }),
        over("Plb_smallR", MIN, [5, 10, 20, 50], |requested| Problem { roles: 10, requested, ..BASE }),
        over("R_bigPlb", LOW, [8, 10, 12, 14, 16], |roles| Problem { roles, requested: 100, ..BASE }),
        over("R_smallPlb", MIN, [8, 10, 12, 14, 16], |roles| Problem { roles, requested: 2, ..BASE }),
        over("RPhat_bigPlb", LOW, [2, 4, 6, 8, 10, 12], |holders| Problem { holders, requested: 10, ..BASE }),
        over("RPhat_medPlb", MIN, [2, 4, 6, 8, 10, 12], |holders| Problem { holders, requested: 4, ..BASE }),
        over("RPhat_smallPlb", MIN, [2, 4, 6, 8, 10, 12], |holders| Problem { holders, requested: 1, ..BASE }),
        over("Pub", MIN, [64, 128, 192, 256], |permissions| Problem { permissions, exclusions: 32, n: 4, ..BASE }),
        over("C", LOW, [0, 4, 8, 16, 32], |exclusions| Problem { exclusions, n: 4, ..BASE }),
        over("rshat", MIN, [5, 8, 12, 16], |members| Problem { members: members as usize, exclusions: 10, ..BASE }),
        over("that", MIN, [2, 4, 6, 8], |n| Problem { n, exclusions: 32, ..BASE }),
    ]
}

/// The families of table 4, for objectives with a 2.
fn table_4() -> Vec<Family> {
    const MAX: &[(u64, u64)] = &[(2, 0)];
    const HIGH: &[(u64, u64)] = &[(2, 0), (2, 2), (2, 1), (1, 2), (0, 2)];
    vec![
        over("Pub_bigRCt", MAX, [64, 128, 192, 256], |permissions| Problem { permissions, exclusions: 32, n: 4, ..BASE }),
        over("Pub_smallR", MAX, [64, 128, 256], |permissions| Problem {
            permissions,
            roles: 10,
            exclusions: 32,
            n: 4,
            ..BASE
        }),
        over("Pub_smallCt", HIGH, [64, 128, 256], |permissions| Problem { permissions, exclusions: 5, n: 2, ..BASE }),
        over("RPhat_bigRCt", MAX, [4, 8, 12], |holders| Problem {
            holders,
            exclusions: 32,
            members: 12,
            n: 6,
            requested: 4,
            ..BASE
        }),
        over("RPhat_smallCt", HIGH, [2, 6, 12], |holders| Problem {
            holders,
            exclusions: 5,
            members: 12,
            n: 8,
            requested: 4,
            ..BASE
        }),
        over("C_bigRPub", HIGH, [0, 8, 16, 32], |exclusions| Problem { exclusions, n: 4, ..BASE }),
        over("C_smallR", MAX, [4, 16, 32], |exclusions| Problem { exclusions, n: 4, roles: 10, ..BASE }),
        over("C_smallRpPub", MAX, [4, 16, 32], |exclusions| Problem { exclusions, n: 4, permissions: 50, ..BASE }),
        over("that_bigRpPub", MAX, [2, 4, 6, 8], |n| Problem { n, exclusions: 32, ..BASE }),
        over("that_smallR", MAX, [2, 4, 6, 8], |n| Problem { n, exclusions: 32, roles: 10, ..BASE }),
        over("rshat_bigRCt", MAX, [5, 8, 12, 16], |members| Problem { members: members as usize, exclusions: 10, ..BASE }),
        over("rshat_smallRCt", MAX, [5, 8, 12, 16], |members| Problem { members: members as usize, exclusions: 1, ..BASE }),
        over("Plb", MAX, [10, 40, 100], |requested| Problem { requested, exclusions: 20, members: 5, n: 2, ..BASE }),
    ]
}

/// One ask, posed and ready to be put again and again.
pub struct Asked {
    pub image: Vec<u8>,
    pub lower: Vec<u8>,
    pub upper: Vec<u8>,
    pub aims: (u64, u64),
}

/// Who answers.
#[derive(Clone, Copy)]
enum Way {
    Kit,
    Plain(Method),
}

impl Asked {
    /// Puts the ask to a user with one open session and nothing active; ledger and answer after it, with the number.
    fn put(&self, way: Way, ledger: &mut [u8; LINE], answer: &mut [u8; 40]) -> u64 {
        *ledger = [0; LINE];
        ledger[0] = 1;
        let (image, lower, upper) = (black_box(&self.image), &self.lower, &self.upper);
        match way {
            Way::Kit => {
                let wish = kit::Wish { user: 0, session: 0, lower, upper };
                kit::ask(Empty::Somewhere, image, ledger, &wish, self.aims, answer)
            }
            Way::Plain(method) => {
                let wish = Wish { user: 0, session: 0, lower, upper, objectives: self.aims };
                plain::ask(image, ledger, &wish, answer, method)
            }
        }
    }

    /// All three ways give the same number, ledger and answer.
    fn agreed(&self) -> u64 {
        let outcome = |way| {
            let (mut ledger, mut answer) = ([0; LINE], [7; 40]);
            (self.put(way, &mut ledger, &mut answer), ledger, answer)
        };
        let kit = outcome(Way::Kit);
        for method in [Method::Kit, Method::AllSubsets] {
            assert!(kit == outcome(Way::Plain(method)), "kit and plain differ: {:?}", kit);
        }
        kit.0
    }
}

/// All asks of a row, put once.
fn put_all(asks: &[Asked], way: Way) {
    let (mut ledger, mut answer) = ([0; LINE], [0; 40]);
    for asked in asks {
        black_box(asked.put(way, &mut ledger, &mut answer));
    }
}

/// The asks of a family under one pair of aims, two for each problem.
fn asks_of(family: &Family, aims: (u64, u64)) -> Vec<Asked> {
    let mut rng = Rng::new(family.name.len() as u64);
    let mut asks = Vec::new();
    for problem in &family.problems {
        for _ in 0..2 {
            let (image, lower) = posed(&mut rng, *problem);
            asks.push(Asked { image, lower, upper: all(*problem), aims });
        }
    }
    asks
}

/// The asks whose clause texts are timed: of each family those under its first pair of aims.
pub fn texts() -> Vec<(String, Vec<Asked>)> {
    let of = |family: &Family| {
        let aims = family.aims[0];
        (format!("{} {} {}", family.name, aims.0, aims.1), asks_of(family, aims))
    };
    table_3().iter().chain(&table_4()).map(of).collect()
}

/// Times the asks of a family under one pair of aims.
fn row(family: &Family, aims: (u64, u64), report: &mut Report) {
    let name = format!("{} {} {}", family.name, aims.0, aims.1);
    if !report.wants(&name) {
        return;
    }
    let asks = asks_of(family, aims);
    let done = asks.iter().filter(|asked| asked.agreed() == 0).count();
    let name = format!("{name}, {done} of {} done", asks.len());
    let mut kit = || put_all(&asks, Way::Kit);
    let mut plain = || put_all(&asks, Way::Plain(Method::Kit));
    let mut subsets = || put_all(&asks, Way::Plain(Method::AllSubsets));
    let times = report.beside(&name, &mut kit, &mut plain);
    let subsets = timing::alone(&mut subsets);
    let each = |time: f64| time / asks.len() as f64;
    println!(
        "{name:<44} {:>12.0} {:>12.0} {:>7.2} {:>14.0} {:>7.3}",
        each(times.first),
        each(times.second),
        times.ratio,
        each(subsets),
        times.first / subsets
    );
}

/// Times all families.
pub fn asks(report: &mut Report) {
    println!();
    println!("asks by 003's tables 3 and 4 (aims: permissions, roles; 0 any, 1 min, 2 max); a row's time is the mean ask");
    println!("{:<44} {:>12} {:>12} {:>7} {:>14} {:>7}", "family", "kit ns", "plain ns", "ratio", "all subsets ns", "ratio");
    for family in table_3().iter().chain(&table_4()) {
        for aims in family.aims {
            row(family, *aims, report);
        }
    }
}
