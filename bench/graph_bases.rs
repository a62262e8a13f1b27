//! Scripts with one `basis` line for each of some modules, and their replies by a plain loop, which the cost of bases is
//! measured beside: Buchberger's algorithm on the graph, in ascending degree, with the chain criterion and geometric
//! buckets.
//!
//! usage: graph_bases script cubics|quartics|quadrics|modules
//!        graph_bases replies FILE
//!
//! The jobs made here are seven dense cubics in five variables, six dense quartics in four, eight dense quadrics in six, and
//! a hundred small modules. All coefficients are residues modulo 32003.

mod common;

use common::{Generator, merge};
use std::cmp::Ordering;
use std::collections::BTreeMap;
use std::fmt::Write;

const P: u64 = 32003;
const VARIABLES: [&str; 6] = ["a", "b", "c", "d", "e", "f"];

/// The sum of the exponents, and the exponents.
#[derive(Clone, Copy, PartialEq, Eq)]
struct Mono {
    sum: u32,
    exponents: [u16; 6],
}

impl Mono {
    fn times(&self, other: &Mono) -> Mono {
        Mono {
            sum: self.sum + other.sum,
            exponents: std::array::from_fn(|i| self.exponents[i] + other.exponents[i]),
        }
    }

    fn divides(&self, other: &Mono) -> bool {
        self.sum <= other.sum && (0..6).all(|i| self.exponents[i] <= other.exponents[i])
    }

    fn over(&self, other: &Mono) -> Mono {
        Mono {
            sum: self.sum - other.sum,
            exponents: std::array::from_fn(|i| self.exponents[i] - other.exponents[i]),
        }
    }

    fn lcm(&self, other: &Mono) -> Mono {
        let exponents: [u16; 6] =
            std::array::from_fn(|i| self.exponents[i].max(other.exponents[i]));
        Mono {
            sum: exponents.iter().map(|e| *e as u32).sum(),
            exponents,
        }
    }

    fn key(&self) -> u128 {
        let e = &self.exponents;
        (e[0] as u128) | (e[1] as u128) << 16 | (e[2] as u128) << 32 | (e[3] as u128) << 48 | (e[4] as u128) << 64 | (e[5] as u128) << 80
    }

    /// The degree reverse lexicographic order.
    fn compare(&self, other: &Mono) -> Ordering {
        self.sum
            .cmp(&other.sum)
            .then_with(|| other.key().cmp(&self.key()))
    }
}

#[derive(Clone, Copy)]
struct Term {
    position: u32,
    coefficient: u32,
    monomial: Mono,
}

impl Term {
    fn compare(&self, other: &Term) -> Ordering {
        other
            .position
            .cmp(&self.position)
            .then_with(|| self.monomial.compare(&other.monomial))
    }

    fn times(&self, factor: &Mono, coefficient: u64) -> Term {
        Term {
            position: self.position,
            coefficient: (self.coefficient as u64 * coefficient % P) as u32,
            monomial: self.monomial.times(factor),
        }
    }
}

/// A row: its degree, and its terms, the greatest first.
#[derive(Clone)]
struct Row {
    degree: i64,
    terms: Vec<Term>,
}

/// A matrix: the degrees of its target, and its rows.
struct Matrix {
    target: Vec<i64>,
    rows: Vec<Row>,
}

/// The monomials of a degree in some variables, the greatest first.
fn monomials(variables: usize, degree: u16) -> Vec<Mono> {
    fn extend(variables: usize, from: usize, left: u16, exponents: &mut [u16; 6], all: &mut Vec<Mono>) {
        if from + 1 == variables {
            exponents[from] = left;
            all.push(Mono {
                sum: exponents.iter().map(|e| *e as u32).sum(),
                exponents: *exponents,
            });
            exponents[from] = 0;
            return;
        }
        for e in 0..=left {
            exponents[from] = e;
            extend(variables, from + 1, left - e, exponents, all);
        }
        exponents[from] = 0;
    }
    let mut all = Vec::new();
    extend(variables, 0, degree, &mut [0; 6], &mut all);
    all.sort_by(|a, b| b.compare(a));
    all
}

/// A form of this degree at a position, in which every monomial has a coefficient.
fn form(generator: &mut Generator, variables: usize, position: u32, degree: u16) -> Vec<Term> {
    monomials(variables, degree)
        .into_iter()
        .map(|monomial| Term {
            position,
            coefficient: generator.next_coefficient(P as u32),
            monomial,
        })
        .collect()
}

/// An ideal of dense forms.
fn ideal(variables: usize, degree: u16, count: usize) -> Matrix {
    let mut generator = Generator { state: 1 };
    let rows = (0..count)
        .map(|_| Row {
            degree: degree as i64,
            terms: form(&mut generator, variables, 0, degree),
        })
        .collect();
    Matrix {
        target: vec![0],
        rows,
    }
}

/// A module of three rows over generators of the degrees 0, 0 and 1, in three variables.
fn module(generator: &mut Generator) -> Matrix {
    let target = vec![0, 0, 1];
    let rows = (0..3)
        .map(|_| {
            let degree = 2 + generator.next_number() % 2;
            let mut terms = Vec::new();
            for (position, shift) in target.iter().enumerate() {
                let degree = degree as i64 - shift;
                terms.extend(form(generator, 3, position as u32, degree as u16));
            }
            Row {
                degree: degree as i64,
                terms,
            }
        })
        .collect();
    Matrix { target, rows }
}

/// The canonical lists whose sum is wanted, each with the number of terms that were taken from its front.
struct Buckets {
    lists: Vec<(Vec<Term>, usize)>,
}

fn sum(left: &[Term], right: &[Term]) -> Vec<Term> {
    merge(left, right, Term::compare, |t, u| {
        let coefficient = ((t.coefficient as u64 + u.coefficient as u64) % P) as u32;
        (coefficient != 0).then_some(Term { coefficient, ..*t })
    })
}

impl Buckets {
    fn new() -> Buckets {
        Buckets { lists: Vec::new() }
    }

    fn push(&mut self, mut terms: Vec<Term>) {
        let mut level = 0;
        while 4usize.pow(level as u32 + 1) < terms.len() {
            level += 1;
        }
        loop {
            while self.lists.len() <= level {
                self.lists.push((Vec::new(), 0));
            }
            let (list, from) = &self.lists[level];
            if *from < list.len() {
                terms = sum(&list[*from..], &terms);
            }
            if terms.len() <= 4usize.pow(level as u32 + 1) {
                self.lists[level] = (terms, 0);
                return;
            }
            self.lists[level] = (Vec::new(), 0);
            level += 1;
        }
    }

    fn pop(&mut self) -> Option<Term> {
        loop {
            let mut greatest: Option<Term> = None;
            for (list, from) in &self.lists {
                if let Some(t) = list.get(*from) {
                    if greatest.is_none_or(|g| g.compare(t) == Ordering::Less) {
                        greatest = Some(*t);
                    }
                }
            }
            let first = greatest?;
            let mut coefficient = 0;
            for (list, from) in &mut self.lists {
                if let Some(t) = list.get(*from) {
                    if t.position == first.position && t.monomial == first.monomial {
                        coefficient += t.coefficient as u64;
                        *from += 1;
                    }
                }
            }
            let coefficient = (coefficient % P) as u32;
            if coefficient != 0 {
                return Some(Term {
                    coefficient,
                    ..first
                });
            }
        }
    }
}

fn inverse(a: u64) -> u64 {
    let (mut result, mut power, mut exponent) = (1, a, P - 2);
    while exponent > 0 {
        if exponent % 2 == 1 {
            result = result * power % P;
        }
        power = power * power % P;
        exponent /= 2;
    }
    result
}

/// A basis that grows: its monic rows, and their numbers by the position of the lead.
struct Basis {
    rows: Vec<Row>,
    at: Vec<Vec<(Mono, usize)>>,
}

impl Basis {
    fn divisor(&self, t: &Term) -> Option<usize> {
        self.at[t.position as usize]
            .iter()
            .find(|(lead, _)| lead.divides(&t.monomial))
            .map(|(_, i)| *i)
    }

    fn rest(&self, mut left: Buckets) -> Vec<Term> {
        let mut rest = Vec::new();
        while let Some(t) = left.pop() {
            match self.divisor(&t) {
                None => rest.push(t),
                Some(i) => {
                    let row = &self.rows[i].terms;
                    let factor = t.monomial.over(&row[0].monomial);
                    let coefficient = P - t.coefficient as u64;
                    left.push(row[1..].iter().map(|u| u.times(&factor, coefficient)).collect());
                }
            }
        }
        rest
    }

    /// The reduced basis of the graph of a matrix.
    fn of_graph(m: &Matrix) -> Vec<Row> {
        let columns = m.target.len();
        let mut degrees = m.target.clone();
        degrees.extend(m.rows.iter().map(|row| row.degree));
        let mut basis = Basis {
            rows: Vec::new(),
            at: vec![Vec::new(); degrees.len()],
        };
        let mut waiting: BTreeMap<i64, Vec<(usize, usize)>> = BTreeMap::new();
        for (k, row) in m.rows.iter().enumerate() {
            waiting.entry(row.degree).or_default().push((k, k));
        }
        let mut done: Vec<Vec<bool>> = Vec::new();
        while let Some((degree, pairs)) = waiting.pop_first() {
            for (i, j) in pairs {
                let mut left = Buckets::new();
                if i == j {
                    let mut terms = m.rows[i].terms.clone();
                    terms.push(Term {
                        position: (columns + i) as u32,
                        coefficient: 1,
                        monomial: Mono {
                            sum: 0,
                            exponents: [0; 6],
                        },
                    });
                    left.push(terms);
                } else {
                    let (f, g) = (&basis.rows[i].terms, &basis.rows[j].terms);
                    let lcm = f[0].monomial.lcm(&g[0].monomial);
                    let is_done = |k: usize, l: usize| done[k.max(l)][k.min(l)];
                    let chained = basis.at[f[0].position as usize].iter().any(|(lead, k)| {
                        *k != i && *k != j && is_done(i, *k) && is_done(*k, j) && lead.divides(&lcm)
                    });
                    done[j][i] = true;
                    if chained {
                        continue;
                    }
                    let (a, b) = (lcm.over(&f[0].monomial), lcm.over(&g[0].monomial));
                    left.push(f[1..].iter().map(|t| t.times(&a, 1)).collect());
                    left.push(g[1..].iter().map(|t| t.times(&b, P - 1)).collect());
                }
                let rest = basis.rest(left);
                let Some(lead) = rest.first().copied() else {
                    continue;
                };
                let number = basis.rows.len();
                let by = inverse(lead.coefficient as u64);
                let one = Mono {
                    sum: 0,
                    exponents: [0; 6],
                };
                basis.rows.push(Row {
                    degree,
                    terms: rest.iter().map(|t| t.times(&one, by)).collect(),
                });
                done.push(vec![false; number]);
                for (other, k) in &basis.at[lead.position as usize] {
                    let sum = other.lcm(&lead.monomial).sum as i64;
                    let degree = degrees[lead.position as usize] + sum;
                    waiting.entry(degree).or_default().push((*k, number));
                }
                basis.at[lead.position as usize].push((lead.monomial, number));
            }
        }
        let mut reduced: Vec<Row> = basis
            .rows
            .iter()
            .map(|row| {
                let mut left = Buckets::new();
                left.push(row.terms[1..].to_vec());
                let mut terms = vec![row.terms[0]];
                terms.extend(basis.rest(left));
                Row {
                    degree: row.degree,
                    terms,
                }
            })
            .collect();
        reduced.sort_by(|a, b| {
            a.degree
                .cmp(&b.degree)
                .then_with(|| b.terms[0].compare(&a.terms[0]))
        });
        reduced
    }
}

fn print_polynomial(out: &mut String, terms: &[&Term]) {
    if terms.is_empty() {
        out.push('0');
    }
    for (k, t) in terms.iter().enumerate() {
        if k > 0 {
            out.push('+');
        }
        let mut factors = Vec::new();
        for (i, e) in t.monomial.exponents.iter().enumerate() {
            match e {
                0 => {}
                1 => factors.push(VARIABLES[i].to_string()),
                _ => factors.push(format!("{}^{e}", VARIABLES[i])),
            }
        }
        if t.coefficient != 1 || factors.is_empty() {
            factors.insert(0, t.coefficient.to_string());
        }
        out.push_str(&factors.join("*"));
    }
}

fn print_rows(out: &mut String, columns: usize, rows: &[&Row]) {
    out.push('[');
    for (k, row) in rows.iter().enumerate() {
        if k > 0 {
            out.push(';');
        }
        for column in 0..columns {
            if column > 0 {
                out.push(',');
            }
            let entry: Vec<&Term> = row
                .terms
                .iter()
                .filter(|t| t.position as usize == column)
                .collect();
            print_polynomial(out, &entry);
        }
    }
    out.push(']');
}

fn print_degrees(out: &mut String, degrees: impl Iterator<Item = i64>) {
    let texts: Vec<String> = degrees.map(|d| d.to_string()).collect();
    write!(out, "({})", texts.join(",")).unwrap();
}

/// A term of a script: a coefficient and powers of variables, with `*` between them.
fn read_term(text: &str, names: &[&str], position: u32) -> Term {
    let mut coefficient = 1;
    let mut exponents = [0; 6];
    for factor in text.split('*') {
        if factor.starts_with(|c: char| c.is_ascii_digit()) {
            coefficient = factor.parse().unwrap();
        } else {
            let (name, power) = factor.split_once('^').unwrap_or((factor, "1"));
            let variable = names.iter().position(|n| *n == name).unwrap();
            exponents[variable] = power.parse().unwrap();
        }
    }
    Term {
        position,
        coefficient,
        monomial: Mono {
            sum: exponents.iter().map(|e| *e as u32).sum(),
            exponents,
        },
    }
}

/// The matrix of a line `module NAME degrees D .. relations [..]`, whose terms all have a plus sign.
fn read_module(line: &str, names: &[&str]) -> Matrix {
    let (front, rows) = line.split_once(" relations ").unwrap();
    let target: Vec<i64> = front
        .split(' ')
        .skip(3)
        .map(|d| d.parse().unwrap())
        .collect();
    let rows = rows[1..rows.len() - 1]
        .split(';')
        .map(|row| {
            let mut terms = Vec::new();
            for (position, entry) in row.split(',').enumerate() {
                if entry != "0" {
                    terms.extend(entry.split('+').map(|t| read_term(t, names, position as u32)));
                }
            }
            terms.sort_by(|a, b| b.compare(a));
            let degree = target[terms[0].position as usize] + terms[0].monomial.sum as i64;
            Row { degree, terms }
        })
        .collect();
    Matrix { target, rows }
}

/// The script of a job whose modules are made here.
fn script_of(job: &str) -> String {
    let (variables, matrices) = match job {
        "cubics" => (5, vec![ideal(5, 3, 7)]),
        "quartics" => (4, vec![ideal(4, 4, 6)]),
        "quadrics" => (6, vec![ideal(6, 2, 8)]),
        "modules" => {
            let mut generator = Generator { state: 1 };
            (3, (0..100).map(|_| module(&mut generator)).collect())
        }
        _ => panic!("no such job"),
    };
    let names = VARIABLES[..variables].join(" ");
    let mut out = format!("spectral 1\nring {P} {names}\n");
    for (k, m) in matrices.iter().enumerate() {
        let degrees: Vec<String> = m.target.iter().map(|d| d.to_string()).collect();
        write!(out, "module M{k} degrees {} relations ", degrees.join(" ")).unwrap();
        print_rows(&mut out, m.target.len(), &m.rows.iter().collect::<Vec<_>>());
        writeln!(out, "\nbasis M{k}").unwrap();
    }
    out
}

/// The replies to a script of modules, each with a line that asks for its basis.
fn replies_to(script: &str) -> String {
    let mut names = Vec::new();
    let mut out = String::new();
    let mut module = None;
    for line in script.lines() {
        if let Some(ring) = line.strip_prefix("ring ") {
            names = ring.split(' ').skip(1).collect();
        }
        if line.starts_with("module ") {
            module = Some(read_module(line, &names));
        }
        let Some(m) = line.strip_prefix("basis ").and(module.as_ref()) else {
            out.push_str("ok\n");
            continue;
        };
        let basis = Basis::of_graph(m);
        let values: Vec<&Row> = basis
            .iter()
            .filter(|row| (row.terms[0].position as usize) < m.target.len())
            .collect();
        out.push_str("basis ");
        print_degrees(&mut out, values.iter().map(|row| row.degree));
        out.push_str("->");
        print_degrees(&mut out, m.target.iter().copied());
        out.push(' ');
        print_rows(&mut out, m.target.len(), &values);
        out.push('\n');
    }
    out
}

fn main() {
    let words: Vec<String> = std::env::args().collect();
    let out = match words[1].as_str() {
        "script" => script_of(&words[2]),
        _ => replies_to(&std::fs::read_to_string(&words[2]).unwrap()),
    };
    print!("{out}");
}
