//! A settle with the scan in plain Rust, for comparing speed: a module of
//! settle.rs. The rules are in docs/RECEIVER.md.

const MINUTES: usize = 64;
const ROWS: usize = 96;
const TERMS: usize = 16;

/// How many words an answer may take: the longest is a contradiction's.
pub const ANSWER: usize = 3 + ROWS;

// The first word of an answer.
pub const PART: u16 = 0;
pub const WHOLE: u16 = 1;
pub const CONTRADICTION: u16 = 2;
pub const FAILED: u16 = 3;
pub const NO_HOUR: u16 = 4;

/// Operations on codes, the numbers below `Q`.
pub trait Field {
    const Q: u16;
    fn plus(a: u16, b: u16) -> u16;
    fn negative(a: u16) -> u16;
    fn times(a: u16, b: u16) -> u16;
    fn inverse(a: u16) -> Option<u16>;
}

pub struct Prime;

impl Field for Prime {
    const Q: u16 = 65521;

    fn plus(a: u16, b: u16) -> u16 {
        let sum = u32::from(a) + u32::from(b);
        let q = u32::from(Self::Q);
        (if sum < q { sum } else { sum - q }) as u16
    }

    fn negative(a: u16) -> u16 {
        if a == 0 {
            0
        } else {
            Self::Q - a
        }
    }

    fn times(a: u16, b: u16) -> u16 {
        (u32::from(a) * u32::from(b) % u32::from(Self::Q)) as u16
    }

    fn inverse(a: u16) -> Option<u16> {
        let q = i32::from(Self::Q);
        let (mut r0, mut r1, mut t0, mut t1) = (q, i32::from(a), 0, 1);
        if r1 == 0 {
            return None;
        }
        while r1 != 0 {
            let times = r0 / r1;
            (r0, r1) = (r1, r0 - times * r1);
            (t0, t1) = (t1, t0 - times * t1);
        }
        Some((if t0 < 0 { t0 + q } else { t0 }) as u16)
    }
}

/// The powers of 2 twice over, so that a sum of two logarithms needs no
/// remainder, and the logarithms (that of 0 is never used).
const fn tables() -> ([u8; 510], [u8; 256]) {
    let mut exp = [0; 510];
    let mut log = [0; 256];
    let mut power = 1;
    let mut i = 0;
    while i < 255 {
        exp[i] = power as u8;
        exp[i + 255] = power as u8;
        log[power] = i as u8;
        power <<= 1;
        if power > 255 {
            power ^= 285;
        }
        i += 1;
    }
    (exp, log)
}

static EXP: [u8; 510] = tables().0;
static LOG: [u8; 256] = tables().1;

pub struct Octets;

impl Field for Octets {
    const Q: u16 = 256;

    fn plus(a: u16, b: u16) -> u16 {
        a ^ b
    }

    fn negative(a: u16) -> u16 {
        a
    }

    fn times(a: u16, b: u16) -> u16 {
        if a == 0 || b == 0 {
            return 0;
        }
        u16::from(EXP[usize::from(LOG[usize::from(a)]) + usize::from(LOG[usize::from(b)])])
    }

    fn inverse(a: u16) -> Option<u16> {
        if a == 0 {
            return None;
        }
        Some(u16::from(EXP[255 - usize::from(LOG[usize::from(a)])]))
    }
}

/// The sum of the products, place by place.
fn dot<F: Field>(a: &[u16], b: &[u16]) -> u16 {
    a.iter().zip(b).fold(0, |total, (&a, &b)| F::plus(total, F::times(a, b)))
}

/// Adds a multiple of one vector to another.
fn add_scaled<F: Field>(to: &mut [u16], factor: u16, from: &[u16]) {
    for (to, &from) in to.iter_mut().zip(from) {
        *to = F::plus(*to, F::times(factor, from));
    }
}

fn first_not_zero(values: &[u16]) -> Option<usize> {
    values.iter().position(|&value| value != 0)
}

#[derive(Clone, Copy, Default)]
struct Term {
    minute: u16,
    weight: u16,
}

#[derive(Clone, Copy, Default)]
struct Row {
    sum: u16,
    terms: [Term; TERMS],
    len: usize,
}

impl Row {
    fn terms(&self) -> &[Term] {
        &self.terms[..self.len]
    }

    /// The sum less the weights times the codes at their minutes.
    fn value<F: Field>(&self, x: &[u16; MINUTES]) -> u16 {
        let total = self.terms().iter().fold(0, |total, term| {
            F::plus(total, F::times(term.weight, x[usize::from(term.minute)]))
        });
        F::plus(self.sum, F::negative(total))
    }

    /// The weight at a minute, 0 where there is no term.
    fn weight(&self, minute: usize) -> u16 {
        let found = self.terms().iter().find(|term| usize::from(term.minute) == minute);
        found.map_or(0, |term| term.weight)
    }
}

/// The rows of an hour. Weights and sums are codes.
struct Hour {
    width: usize,
    rows: [Row; ROWS],
    len: usize,
}

impl Hour {
    /// Reads the width, then for each row the number of its terms, its sum, and
    /// a minute and a weight for each term. None where that is no hour.
    fn read<F: Field>(words: &[u16]) -> Option<Hour> {
        let (&width, mut rest) = words.split_first()?;
        if !(1..=MINUTES).contains(&usize::from(width)) {
            return None;
        }
        let mut hour = Hour { width: width.into(), rows: [Row::default(); ROWS], len: 0 };
        while let [count, sum, behind @ ..] = rest {
            let count = usize::from(*count);
            let row = hour.rows.get_mut(hour.len)?;
            if count > TERMS || behind.len() < 2 * count {
                return None;
            }
            let (pairs, next) = behind.split_at(2 * count);
            let mut least = 0;
            for (term, pair) in row.terms.iter_mut().zip(pairs.chunks_exact(2)) {
                if pair[0] < least || pair[0] >= width {
                    return None;
                }
                least = pair[0] + 1;
                *term = Term { minute: pair[0], weight: pair[1] % F::Q };
            }
            row.sum = sum % F::Q;
            row.len = count;
            hour.len += 1;
            rest = next;
        }
        rest.is_empty().then_some(hour)
    }

    fn rows(&self) -> &[Row] {
        &self.rows[..self.len]
    }

    /// The first row whose value is not 0.
    fn first_row<F: Field>(&self, x: &[u16; MINUTES]) -> Option<usize> {
        self.rows().iter().position(|row| row.value::<F>(x) != 0)
    }

    /// The rows with a factor other than 0.
    fn factors<'a>(&'a self, u: &'a [u16; ROWS]) -> impl Iterator<Item = (&'a Row, u16)> {
        self.rows().iter().zip(u.iter().copied()).filter(|&(_, factor)| factor != 0)
    }

    /// The first column whose value is not 0: all are added up in one pass.
    fn first_column<F: Field>(&self, u: &[u16; ROWS]) -> Option<usize> {
        let mut values = [0; MINUTES];
        for (row, factor) in self.factors(u) {
            for term in row.terms() {
                let value = &mut values[usize::from(term.minute)];
                *value = F::plus(*value, F::times(factor, term.weight));
            }
        }
        first_not_zero(&values)
    }

    /// The value of one column.
    fn column_value<F: Field>(&self, u: &[u16; ROWS], column: usize) -> u16 {
        self.factors(u)
            .fold(0, |total, (row, factor)| F::plus(total, F::times(factor, row.weight(column))))
    }
}

/// Answers the two questions of a run, rightly or not.
trait Scout {
    fn row<F: Field>(&mut self, hour: &Hour, x: &[u16; MINUTES]) -> Option<usize>;
    fn column<F: Field>(&mut self, hour: &Hour, u: &[u16; ROWS]) -> Option<usize>;
}

struct Scan;

impl Scout for Scan {
    fn row<F: Field>(&mut self, hour: &Hour, x: &[u16; MINUTES]) -> Option<usize> {
        hour.first_row::<F>(x)
    }

    fn column<F: Field>(&mut self, hour: &Hour, u: &[u16; ROWS]) -> Option<usize> {
        hour.first_column::<F>(u)
    }
}

/// Pivot rows, pivot columns, and the inverse of the matrix at both: a row for
/// each pivot column and a column for each pivot row.
struct Pivots {
    len: usize,
    rows: [usize; MINUTES],
    columns: [usize; MINUTES],
    inverse: [[u16; MINUTES]; MINUTES],
}

impl Pivots {
    fn new() -> Pivots {
        Pivots {
            len: 0,
            rows: [0; MINUTES],
            columns: [0; MINUTES],
            inverse: [[0; MINUTES]; MINUTES],
        }
    }

    fn rows(&self) -> &[usize] {
        &self.rows[..self.len]
    }

    fn columns(&self) -> &[usize] {
        &self.columns[..self.len]
    }

    /// Something of each pivot row.
    fn gather(&self, of: impl Fn(usize) -> u16) -> [u16; MINUTES] {
        let mut values = [0; MINUTES];
        for (value, &row) in values.iter_mut().zip(self.rows()) {
            *value = of(row);
        }
        values
    }

    /// The inverse times a vector over the pivot rows.
    fn times<F: Field>(&self, vector: &[u16; MINUTES]) -> [u16; MINUTES] {
        let mut product = [0; MINUTES];
        for (value, row) in product.iter_mut().zip(&self.inverse[..self.len]) {
            *value = dot::<F>(&row[..self.len], &vector[..self.len]);
        }
        product
    }

    /// x: the inverse times the sums, placed at the pivot columns.
    fn solution<F: Field>(&self, hour: &Hour) -> [u16; MINUTES] {
        let product = self.times::<F>(&self.gather(|row| hour.rows[row].sum));
        let mut x = [0; MINUTES];
        for (&column, &value) in self.columns().iter().zip(&product) {
            x[column] = value;
        }
        x
    }

    /// vB: the weights of a row at the pivot columns, times the inverse.
    fn multipliers<F: Field>(&self, row: &Row) -> [u16; MINUTES] {
        let mut weights = [0; MINUTES];
        for term in row.terms() {
            weights[usize::from(term.minute)] = term.weight;
        }
        let mut product = [0; MINUTES];
        for (&column, inverse) in self.columns().iter().zip(&self.inverse) {
            // Few of the weights are not 0.
            if weights[column] != 0 {
                add_scaled::<F>(&mut product[..self.len], weights[column], &inverse[..self.len]);
            }
        }
        product
    }

    /// u: 1 at the row, the negative of vB at the pivot rows.
    fn combination<F: Field>(&self, row: usize, vb: &[u16; MINUTES]) -> [u16; ROWS] {
        let mut u = [0; ROWS];
        for (&row, &value) in self.rows().iter().zip(vb) {
            u[row] = F::negative(value);
        }
        u[row] = 1;
        u
    }

    /// One pivot more, by four blocks; `w` is the inverse of what the row leaves
    /// at the column.
    fn grow<F: Field>(
        &mut self,
        hour: &Hour,
        row: usize,
        column: usize,
        vb: &[u16; MINUTES],
        w: u16,
    ) {
        let ba = self.times::<F>(&self.gather(|row| hour.rows[row].weight(column)));
        let len = self.len;
        for (inverse, &value) in self.inverse[..len].iter_mut().zip(&ba) {
            let factor = F::times(value, w);
            if factor != 0 {
                add_scaled::<F>(&mut inverse[..len], factor, &vb[..len]);
            }
            inverse[len] = F::negative(factor);
        }
        let last = &mut self.inverse[len];
        for (last, &value) in last.iter_mut().zip(&vb[..len]) {
            *last = F::negative(F::times(w, value));
        }
        last[len] = w;
        self.rows[len] = row;
        self.columns[len] = column;
        self.len += 1;
    }
}

/// How an answer of a scout was false, and the place that says so.
enum Fault {
    None(usize),
    Place(usize),
    Outside(usize),
}

enum Outcome {
    Solved { pivots: usize, questions: usize, x: [u16; MINUTES] },
    Contradiction { pivots: usize, questions: usize, u: [u16; ROWS] },
    Failed { question: usize, fault: Fault },
}

fn settle<F: Field, S: Scout>(hour: &Hour, scout: &mut S) -> Outcome {
    let mut pivots = Pivots::new();
    let mut questions = 0;
    loop {
        let x = pivots.solution::<F>(hour);
        questions += 1;
        let failed = |fault| Outcome::Failed { question: questions, fault };
        let Some(i) = scout.row::<F>(hour, &x) else {
            return match hour.first_row::<F>(&x) {
                Some(place) => failed(Fault::None(place)),
                None => Outcome::Solved { pivots: pivots.len, questions, x },
            };
        };
        let Some(row) = hour.rows().get(i) else {
            return failed(Fault::Outside(i));
        };
        if row.value::<F>(&x) == 0 {
            return failed(Fault::Place(i));
        }

        let vb = pivots.multipliers::<F>(row);
        let u = pivots.combination::<F>(i, &vb);
        questions += 1;
        let failed = |fault| Outcome::Failed { question: questions, fault };
        let Some(j) = scout.column::<F>(hour, &u) else {
            return match hour.first_column::<F>(&u) {
                Some(place) => failed(Fault::None(place)),
                None => Outcome::Contradiction { pivots: pivots.len, questions, u },
            };
        };
        if j >= hour.width {
            return failed(Fault::Outside(j));
        }
        // What row i leaves at column j.
        let Some(w) = F::inverse(hour.column_value::<F>(&u, j)) else {
            return failed(Fault::Place(j));
        };
        pivots.grow::<F>(hour, i, j, &vb, w);
    }
}

/// Settles the hour that the words hold, with the scan. The answer: PART or
/// WHOLE, the number of pivots, that of questions, and x; CONTRADICTION, the
/// same two numbers, and u; FAILED, the question, the kind of the fault, and the
/// place; or NO_HOUR. The words behind it stay as they were.
#[inline(never)]
pub fn settle_words<F: Field>(words: &[u16], answer: &mut [u16; ANSWER]) {
    let Some(hour) = Hour::read::<F>(words) else {
        answer[0] = NO_HOUR;
        return;
    };
    let head = match settle::<F, Scan>(&hour, &mut Scan) {
        Outcome::Solved { pivots, questions, x } => {
            answer[3..3 + hour.width].copy_from_slice(&x[..hour.width]);
            [if pivots == hour.width { WHOLE } else { PART }, pivots as u16, questions as u16]
        }
        Outcome::Contradiction { pivots, questions, u } => {
            answer[3..3 + hour.len].copy_from_slice(&u[..hour.len]);
            [CONTRADICTION, pivots as u16, questions as u16]
        }
        Outcome::Failed { question, fault } => {
            let (kind, place) = match fault {
                Fault::None(place) => (0, place),
                Fault::Place(place) => (1, place),
                Fault::Outside(place) => (2, place),
            };
            answer[3] = place as u16;
            [FAILED, question as u16, kind]
        }
    };
    answer[..3].copy_from_slice(&head);
}
