//! A clause text held to what it is to say of an ask: the admissible sets, what they carry, and how the aims rank them.

use crate::solver::choice::{choose, each_admissible, rank, Candidate, Request};
use crate::solver::wcnf;

/// What a text that says the right things was seen to say.
pub struct Meant {
    pub admissible: usize,
    /// How many admissible sets have the least weight.
    pub tied: usize,
    pub least: Option<u64>,
}

/// The variables of roles and permissions under a set: what is chosen, what is carried.
fn said(request: &Request, set: &Candidate) -> Vec<bool> {
    let (roles, carried) = (&set.roles[..request.policy.roles], &set.carried[..request.policy.permissions]);
    [roles, carried].concat()
}

/// Reads a text back and compares its models with the admissible sets of the ask, the weights that they violate with
/// the ranks, and the least weight with that of the chosen set: what was seen, or what differs.
pub fn meant(text: &[u8], request: &Request) -> Result<Meant, String> {
    let read = wcnf::read(text)?;
    let mut sets = Vec::new();
    each_admissible(request, &mut |candidate| sets.push(candidate));
    let mut expected: Vec<Vec<bool>> = sets.iter().map(|set| said(request, set)).collect();
    let mut models = read.models(request.policy.roles + request.policy.permissions);
    expected.sort();
    models.sort();
    if models != expected {
        return Err(format!("{} models, {} admissible sets, and they differ", models.len(), expected.len()));
    }
    let mut weighed: Vec<(u64, &Candidate)> = sets.iter().map(|set| (read.violated(&said(request, set)), set)).collect();
    weighed.sort_by_key(|(weight, _)| *weight);
    for pair in weighed.windows(2) {
        if rank(request.objectives, pair[0].1, pair[1].1) != pair[0].0.cmp(&pair[1].0) {
            return Err(format!("the weights {} and {} rank otherwise than the sets", pair[0].0, pair[1].0));
        }
    }
    if weighed.last().is_some_and(|(weight, _)| *weight >= read.top) {
        return Err("the soft weights reach the top weight".to_string());
    }
    let tied = weighed.iter().take_while(|(weight, _)| *weight == weighed[0].0).count();
    let meant = Meant { admissible: sets.len(), tied, least: weighed.first().map(|(weight, _)| *weight) };
    best_is_chosen(&read, request, meant)
}

/// The least weight is that of the chosen set, and an assignment of that weight names a set which ties with it.
fn best_is_chosen(read: &wcnf::Text, request: &Request, meant: Meant) -> Result<Meant, String> {
    let (least, choice) = (read.least(), choose(request));
    let weight_of_choice = choice.as_ref().map(|choice| read.violated(&said(request, &choice.best)));
    if least.as_ref().map(|(weight, _)| *weight) != meant.least || weight_of_choice != meant.least {
        return Err(format!("the least weight is {:?}, the chosen set's {weight_of_choice:?}", meant.least));
    }
    if choice.map_or(0, |choice| choice.tied) != meant.tied {
        return Err(format!("{} sets have the least weight, and others tie", meant.tied));
    }
    let first = request.policy.roles + request.policy.permissions;
    if let Some((weight, model)) = least {
        if weight != read.violated(&model[..first]) {
            return Err(format!("an assignment of weight {weight} violates another weight"));
        }
    }
    Ok(meant)
}
