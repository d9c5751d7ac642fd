//! A text of weighted clauses read back, and what satisfies it: a small PMaxSAT program that knows nothing of roles and
//! permissions.

/// A text by its head line and its clauses.
pub struct Text {
    pub variables: usize,
    pub top: u64,
    pub hard: Vec<Vec<i64>>,
    pub soft: Vec<(u64, Vec<i64>)>,
}

/// A decimal number without a sign or leading zeros.
fn number(word: &str) -> Result<u64, String> {
    let canonical = !word.is_empty() && word.bytes().all(|byte| byte.is_ascii_digit()) && (word == "0" || !word.starts_with('0'));
    if !canonical {
        return Err(format!("{word:?} is no number"));
    }
    word.parse().map_err(|_| format!("{word} is too large"))
}

/// A literal: a variable of the text, perhaps with a minus sign.
fn literal(word: &str, variables: usize) -> Result<i64, String> {
    let (sign, digits) = word.strip_prefix('-').map_or((1, word), |digits| (-1, digits));
    match number(digits)? {
        0 => Err(format!("{word} is no literal")),
        variable if variable > variables as u64 => Err(format!("there is no variable {variable}")),
        variable => Ok(sign * variable as i64),
    }
}

/// Reads a text and holds it to its form: the head line, as many clauses as it says, variables among those that it
/// counts, the hard clauses first, the top weight one more than all soft weights together.
pub fn read(text: &[u8]) -> Result<Text, String> {
    let text = std::str::from_utf8(text).map_err(|_| "no ASCII".to_string())?;
    let body = text.strip_suffix('\n').ok_or("no newline at the end")?;
    let mut lines = body.split('\n');
    let head: Vec<&str> = lines.next().unwrap_or_default().split(' ').collect();
    let ["p", "wcnf", variables, clauses, top] = head[..] else {
        return Err(format!("{head:?} is no head line"));
    };
    let (variables, clauses, top) = (number(variables)? as usize, number(clauses)?, number(top)?);
    let mut read = Text { variables, top, hard: Vec::new(), soft: Vec::new() };
    for line in lines {
        let words: Vec<&str> = line.split(' ').collect();
        let [weight, literals @ .., "0"] = &words[..] else {
            return Err(format!("{line:?} is no clause"));
        };
        let (weight, literals) =
            (number(weight)?, literals.iter().map(|word| literal(word, variables)).collect::<Result<_, _>>()?);
        match weight == top {
            true if read.soft.is_empty() => read.hard.push(literals),
            true => return Err(format!("{line:?} is hard and stands behind a soft clause")),
            false => read.soft.push((weight, literals)),
        }
    }
    if clauses != (read.hard.len() + read.soft.len()) as u64 {
        return Err(format!("{} clauses, the head says {clauses}", read.hard.len() + read.soft.len()));
    }
    if top != 1 + read.soft.iter().map(|(weight, _)| weight).sum::<u64>() {
        return Err(format!("the top weight is {top}"));
    }
    Ok(read)
}

impl Text {
    /// The weight of the soft clauses that an assignment leaves unsatisfied, those with an open variable aside.
    fn violated_by(&self, values: &[Option<bool>]) -> u64 {
        let fails = |literal: &i64| values[literal.unsigned_abs() as usize] == Some(*literal < 0);
        self.soft.iter().filter(|(_, clause)| clause.iter().all(fails)).map(|(weight, _)| weight).sum()
    }

    /// The same of the first variables alone; the soft clauses may name no other.
    pub fn violated(&self, first: &[bool]) -> u64 {
        let mut values = vec![None; self.variables + 1];
        for (variable, value) in (1..).zip(first) {
            values[variable] = Some(*value);
        }
        self.violated_by(&values)
    }

    /// Every assignment of the first `first` variables that extends to one of all variables under which the hard
    /// clauses hold.
    pub fn models(&self, first: usize) -> Vec<Vec<bool>> {
        let mut found = Vec::new();
        if let Some(mut search) = Search::start(self) {
            search.each_model(1, first, &mut found);
        }
        found
    }

    /// The least weight that an assignment violates under which the hard clauses hold, with such an assignment; none
    /// where there is none.
    pub fn least(&self) -> Option<(u64, Vec<bool>)> {
        let mut best = None;
        Search::start(self)?.improve(1, &mut best);
        best
    }
}

/// An assignment under trial: the values so far, in the order in which they were given, and in which hard clauses a
/// literal stands.
struct Search<'a> {
    text: &'a Text,
    values: Vec<Option<bool>>,
    given: Vec<i64>,
    standing: Vec<Vec<usize>>,
}

/// The place of a literal's list.
fn place(literal: i64) -> usize {
    2 * literal.unsigned_abs() as usize + usize::from(literal < 0)
}

impl<'a> Search<'a> {
    /// No value but those that follow from clauses of one literal; none where these contradict each other.
    fn start(text: &'a Text) -> Option<Search<'a>> {
        let mut standing = vec![Vec::new(); 2 * text.variables + 2];
        for (number, clause) in text.hard.iter().enumerate() {
            clause.iter().for_each(|literal| standing[place(*literal)].push(number));
        }
        let mut search = Search { text, values: vec![None; text.variables + 1], given: Vec::new(), standing };
        let all = (0..text.hard.len()).all(|clause| search.follow(clause)) && search.follow_all(0);
        all.then_some(search)
    }

    fn is(&self, literal: i64) -> Option<bool> {
        self.values[literal.unsigned_abs() as usize].map(|value| value == (literal > 0))
    }

    /// Makes a literal true.
    fn give(&mut self, literal: i64) {
        self.values[literal.unsigned_abs() as usize] = Some(literal > 0);
        self.given.push(literal);
    }

    /// Takes back what was given from a place on.
    fn take_back(&mut self, from: usize) {
        for literal in self.given.drain(from..) {
            self.values[literal.unsigned_abs() as usize] = None;
        }
    }

    /// Gives the one literal that a clause leaves open; false where it leaves none and none is true.
    fn follow(&mut self, clause: usize) -> bool {
        let mut open = None;
        for literal in &self.text.hard[clause] {
            match self.is(*literal) {
                Some(true) => return true,
                Some(false) => {}
                None if open.is_some() => return true,
                None => open = Some(*literal),
            }
        }
        open.map(|literal| self.give(literal)).is_some()
    }

    /// Follows the clauses of all literals that were given from a place on, and of those that this gives.
    fn follow_all(&mut self, mut from: usize) -> bool {
        while from < self.given.len() {
            let denied = place(-self.given[from]);
            from += 1;
            for at in 0..self.standing[denied].len() {
                if !self.follow(self.standing[denied][at]) {
                    return false;
                }
            }
        }
        true
    }

    /// Goes on with a literal made true and with all that follows, if nothing contradicts it, and takes it back.
    fn with<T>(&mut self, literal: i64, go_on: impl FnOnce(&mut Search<'a>) -> T) -> Option<T> {
        let from = self.given.len();
        self.give(literal);
        let result = if self.follow_all(from) { Some(go_on(self)) } else { None };
        self.take_back(from);
        result
    }

    /// The first open variable from one on, up to the last.
    fn open_from(&self, variable: usize, last: usize) -> Option<i64> {
        (variable..=last).find(|variable| self.values[*variable].is_none()).map(|variable| variable as i64)
    }

    /// Whether the open variables can be given values.
    fn extends(&mut self, from: usize) -> bool {
        match self.open_from(from, self.text.variables) {
            None => true,
            Some(open) => [-open, open].into_iter().any(|literal| {
                let next = open as usize + 1;
                self.with(literal, |search| search.extends(next)) == Some(true)
            }),
        }
    }

    /// Finds the values of the first variables in every assignment under which the hard clauses hold.
    fn each_model(&mut self, from: usize, first: usize, found: &mut Vec<Vec<bool>>) {
        match self.open_from(from, first) {
            None if self.extends(first + 1) => {
                found.push((1..=first).map(|variable| self.values[variable] == Some(true)).collect());
            }
            None => {}
            Some(open) => {
                for literal in [-open, open] {
                    self.with(literal, |search| search.each_model(open as usize + 1, first, found));
                }
            }
        }
    }

    /// Finds an assignment of less weight than the best so far, and so on to the least.
    fn improve(&mut self, from: usize, best: &mut Option<(u64, Vec<bool>)>) {
        let weight = self.text.violated_by(&self.values);
        if best.as_ref().is_some_and(|(least, _)| *least <= weight) {
            return;
        }
        match self.open_from(from, self.text.variables) {
            None => *best = Some((weight, self.values[1..].iter().map(|value| *value == Some(true)).collect())),
            Some(open) => {
                for literal in [-open, open] {
                    self.with(literal, |search| search.improve(open as usize + 1, best));
                }
            }
        }
    }
}
