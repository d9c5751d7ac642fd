//! The clause text of an ask: written at once where there is room for any text, else measured by one walk and written
//! by a second.

use super::{asked, enter_asking, reduced, size, Entered, Permissions, Tables, Wish, TABLES};

/// Where a text goes: into a buffer, or nowhere, to be measured.
trait Sink {
    fn bytes(&mut self, bytes: &[u8]);
    fn number(&mut self, number: u32);
}

struct Length(usize);

struct Buffer<'a> {
    out: &'a mut [u8],
    at: usize,
}

fn digits(number: u32) -> usize {
    number.checked_ilog10().map_or(1, |log| log as usize + 1)
}

impl Sink for Length {
    #[inline(always)]
    fn bytes(&mut self, bytes: &[u8]) {
        self.0 += bytes.len();
    }

    #[inline(always)]
    fn number(&mut self, number: u32) {
        self.0 += digits(number);
    }
}

impl Sink for Buffer<'_> {
    #[inline(always)]
    fn bytes(&mut self, bytes: &[u8]) {
        self.out[self.at..self.at + bytes.len()].copy_from_slice(bytes);
        self.at += bytes.len();
    }

    #[inline(always)]
    fn number(&mut self, mut number: u32) {
        let length = digits(number);
        for byte in self.out[self.at..self.at + length].iter_mut().rev() {
            *byte = b'0' + (number % 10) as u8;
            number /= 10;
        }
        self.at += length;
    }
}

/// An ask brought down to masks.
struct Clauses {
    roles: u32,
    permissions: u32,
    own: u64,
    rows: [Permissions; 64],
    lower: Permissions,
    upper: Permissions,
    /// The members left of each exclusion, and what is left of its n.
    reduced: [(u64, u32); 32],
    count: usize,
    objectives: (u64, u64),
}

/// The weight of a hard clause as text.
struct Weight {
    text: [u8; 8],
    length: usize,
}

impl Weight {
    fn new(weight: u32) -> Weight {
        let mut text = [0; 8];
        let mut buffer = Buffer { out: &mut text, at: 0 };
        buffer.number(weight);
        let length = buffer.at;
        Weight { text, length }
    }

    /// A line of one, two or three literals.
    #[inline(always)]
    fn line<const N: usize>(&self, sink: &mut impl Sink, literals: [(&[u8], u32); N]) {
        sink.bytes(&self.text[..self.length]);
        for (before, variable) in literals {
            sink.bytes(before);
            sink.number(variable);
        }
        sink.bytes(b" 0\n");
    }
}

/// No text has more bytes.
pub const MOST_BYTES: usize = 8_388_608;

const IS: &[u8] = b" ";
const NOT: &[u8] = b" -";

fn has(set: &Permissions, permission: u32) -> bool {
    set[permission as usize / 64] >> (permission % 64) & 1 == 1
}

impl Clauses {
    fn new(
        tables: &Tables,
        entered: &Entered,
        session: usize,
        lower: Permissions,
        upper: Permissions,
        objectives: (u64, u64),
    ) -> Clauses {
        let (roles, permissions, count) = (entered.roles, entered.permissions as u32, entered.exclusions);
        let (mut rows, mut reduced_all) = ([[0; 4]; 64], [(0, 0); 32]);
        for (role, row) in rows[..roles as usize].iter_mut().enumerate() {
            *row = tables.row(role);
        }
        for (left, exclusion) in reduced_all.iter_mut().zip(&tables.exclusions[..count]) {
            *left = reduced(exclusion, &entered.line, session);
        }
        Clauses { roles, permissions, own: entered.own, rows, lower, upper, reduced: reduced_all, count, objectives }
    }

    /// The numbers of the head line: variables, clauses, the top weight.
    fn numbers(&self) -> (u32, u32, u32) {
        let (roles, permissions) = (self.roles, self.permissions);
        let carried: u32 = self.rows.iter().map(|row| size(*row)).sum();
        let bounded = size(self.lower) + permissions - size(self.upper);
        let (mut helpers, mut counted) = (0, 0);
        for (left, n) in &self.reduced[..self.count] {
            helpers += left.count_ones() * n;
            counted += 2 + 2 * (left.count_ones() - 1) * n;
        }
        let (mut soft, mut top) = (0, 1);
        for (aim, many, weight) in [(self.objectives.0, permissions, roles + 1), (self.objectives.1, roles, 1)] {
            if aim > 0 {
                (soft, top) = (soft + many, top + many * weight);
            }
        }
        let hard = roles - self.own.count_ones() + carried + permissions + bounded + counted;
        (roles + permissions + helpers, hard + soft, top)
    }

    /// The whole text.
    #[inline(always)]
    fn walk(&self, sink: &mut impl Sink) {
        let (variables, clauses, top) = self.numbers();
        sink.bytes(b"p wcnf ");
        sink.number(variables);
        sink.bytes(b" ");
        sink.number(clauses);
        sink.bytes(b" ");
        sink.number(top);
        sink.bytes(b"\n");
        let weight = Weight::new(top);
        self.carry(sink, &weight);
        self.exclude(sink, &weight);
        for (aim, from, many, weight) in
            [(self.objectives.0, self.roles, self.permissions, self.roles + 1), (self.objectives.1, 0, self.roles, 1)]
        {
            if aim > 0 {
                let (before, weight) = (if aim == 1 { NOT } else { IS }, Weight::new(weight));
                (1..=many).for_each(|next| weight.line(sink, [(before, from + next)]));
            }
        }
    }

    /// What roles may be, what they carry, and the bounds.
    #[inline(always)]
    fn carry(&self, sink: &mut impl Sink, weight: &Weight) {
        let (roles, permissions) = (self.roles, self.permissions);
        for role in 0..roles {
            if self.own >> role & 1 == 0 {
                weight.line(sink, [(NOT, role + 1)]);
            }
        }
        let mut carriers = [0u64; 256];
        for role in 0..roles {
            for (part, word) in self.rows[role as usize].iter().enumerate() {
                let mut left = *word;
                while left != 0 {
                    let permission = 64 * part as u32 + left.trailing_zeros();
                    left &= left - 1;
                    carriers[permission as usize & 255] |= 1 << role;
                    weight.line(sink, [(NOT, role + 1), (IS, roles + permission + 1)]);
                }
            }
        }
        for permission in 0..permissions {
            sink.bytes(&weight.text[..weight.length]);
            sink.bytes(NOT);
            sink.number(roles + permission + 1);
            let mut left = carriers[permission as usize & 255];
            while left != 0 {
                sink.bytes(IS);
                sink.number(left.trailing_zeros() + 1);
                left &= left - 1;
            }
            sink.bytes(b" 0\n");
        }
        (0..permissions)
            .filter(|permission| has(&self.lower, *permission))
            .for_each(|permission| weight.line(sink, [(IS, roles + permission + 1)]));
        (0..permissions)
            .filter(|permission| !has(&self.upper, *permission))
            .for_each(|permission| weight.line(sink, [(NOT, roles + permission + 1)]));
    }

    /// The counters of the exclusions.
    #[inline(always)]
    fn exclude(&self, sink: &mut impl Sink, weight: &Weight) {
        let mut before = self.roles + self.permissions;
        for (members, n) in &self.reduced[..self.count] {
            let (mut left, n) = (*members, *n);
            weight.line(sink, [(NOT, left.trailing_zeros() + 1), (IS, before + 1)]);
            left &= left - 1;
            while left != 0 {
                let variable = left.trailing_zeros() + 1;
                left &= left - 1;
                weight.line(sink, [(NOT, variable), (IS, before + n + 1)]);
                for count in 1..=n {
                    weight.line(sink, [(NOT, before + count), (IS, before + n + count)]);
                }
                for count in 1..n {
                    weight.line(sink, [(NOT, variable), (NOT, before + count), (IS, before + n + count + 1)]);
                }
                before += n;
            }
            before += n;
            weight.line(sink, [(NOT, before)]);
        }
    }
}

/// The clause text of an ask.
#[inline(never)]
pub fn clauses(image: &[u8], ledger: &[u8], wish: &Wish, out: &mut [u8]) -> u64 {
    let mut tables = TABLES;
    let entered = match enter_asking(image, ledger, wish, &mut tables) {
        Ok(entered) => entered,
        Err(number) => return number,
    };
    let (lower, upper) = match asked(&entered, wish) {
        Ok(bounds) => bounds,
        Err(number) => return number,
    };
    let clauses = Clauses::new(&tables, &entered, wish.session as usize, lower, upper, wish.objectives);
    if out.len() < MOST_BYTES {
        let mut length = Length(0);
        clauses.walk(&mut length);
        if out.len() < length.0 {
            return 19;
        }
    }
    let mut buffer = Buffer { out, at: 0 };
    clauses.walk(&mut buffer);
    256 * buffer.at as u64
}
