//! The jobs of `algebra_bench` as plain loops, which its cost is measured beside. It prints the same lines for the same
//! words; `kron_of_any` is `kron` by a loop that does for any second matrix.
//!
//! usage: plain product|sum|kron|kron_of_any ROUNDS

mod common;

use common::{Generator, merge};
use std::cmp::Ordering;
use std::collections::HashMap;
use std::hint::black_box;

/// The exponents of six variables.
type Mono = [u16; 6];

/// A polynomial: its terms, the greatest first.
type Poly = Vec<(Mono, u32)>;

/// A vector: its terms with their generators, the greatest first.
type Vector = Vec<(u64, Mono, u32)>;

/// The degree reverse lexicographic order.
fn compare(a: &Mono, b: &Mono) -> Ordering {
    let degree = |m: &Mono| m.iter().map(|e| *e as u32).sum::<u32>();
    degree(a)
        .cmp(&degree(b))
        .then_with(|| b.iter().rev().cmp(a.iter().rev()))
}

fn compare_places(t: &(u64, Mono, u32), u: &(u64, Mono, u32)) -> Ordering {
    u.0.cmp(&t.0).then_with(|| compare(&t.1, &u.1))
}

fn add_mod(a: u32, b: u32, p: u32) -> u32 {
    let sum = a + b;
    if sum < p { sum } else { sum - p }
}

fn times(a: &Mono, b: &Mono) -> Mono {
    std::array::from_fn(|i| a[i] + b[i])
}

/// A product through a table of coefficients.
fn product(left: &Poly, right: &Poly, p: u32) -> Poly {
    let mut coefficients: HashMap<Mono, u32> = HashMap::new();
    for (a, c) in left {
        for (b, d) in right {
            let sum = coefficients.entry(times(a, b)).or_insert(0);
            *sum = (*sum + c * d) % p;
        }
    }
    let mut terms: Poly = coefficients.into_iter().filter(|(_, c)| *c != 0).collect();
    terms.sort_unstable_by(|t, u| compare(&u.0, &t.0));
    terms
}

/// A sum by a merge.
fn sum(left: &Vector, right: &Vector, p: u32) -> Vector {
    merge(left, right, compare_places, |t, u| {
        let coefficient = add_mod(t.2, u.2, p);
        (coefficient != 0).then_some((t.0, t.1, coefficient))
    })
}

/// The Kronecker product of a matrix with an identity of this size: each row is repeated, at other generators.
fn kron(rows: &[Vector], size: u64) -> Vec<Vector> {
    let mut products = Vec::with_capacity(rows.len() * size as usize);
    for row in rows {
        for k in 0..size {
            products.push(row.iter().map(|t| (t.0 * size + k, t.1, t.2)).collect());
        }
    }
    products
}

/// The Kronecker product of any two matrices, the second of which has this many columns.
fn kron_of_any(rows: &[Vector], others: &[Vector], columns: u64, p: u32) -> Vec<Vector> {
    let mut products = Vec::with_capacity(rows.len() * others.len());
    for row in rows {
        for other in others {
            let mut product = Vec::with_capacity(row.len() * other.len());
            for t in row {
                for u in other {
                    product.push((t.0 * columns + u.0, times(&t.1, &u.1), t.2 * u.2 % p));
                }
            }
            if !product.is_sorted_by(|t, u| compare_places(t, u) == Ordering::Greater) {
                product.sort_unstable_by(|t, u| compare_places(u, t));
            }
            products.push(product);
        }
    }
    products
}

/// A polynomial with all exponents up to 9 of three variables.
fn random_polynomial(numbers: &mut Generator, p: u32) -> Poly {
    let mut terms: Poly = (0..1000_u32)
        .map(|k| {
            let exponents = [k % 10, k / 10 % 10, k / 100, 0, 0, 0];
            (exponents.map(|e| e as u16), numbers.next_coefficient(p))
        })
        .collect();
    terms.sort_unstable_by(|t, u| compare(&u.0, &t.0));
    terms
}

/// A vector of 100,000 terms: 1,000 at each of 100 generators, with exponents up to 9 of three variables and the
/// exponent 0 or 1 of a fourth one.
fn random_vector(numbers: &mut Generator, p: u32) -> Vector {
    let mut terms: Vector = (0..100_000_u64)
        .map(|k| {
            let last = numbers.next_number() % 2;
            let exponents = [
                (k % 10) as u16,
                (k / 10 % 10) as u16,
                (k / 100 % 10) as u16,
                last as u16,
                0,
                0,
            ];
            (k / 1000, exponents, numbers.next_coefficient(p))
        })
        .collect();
    terms.sort_unstable_by(|t, u| compare_places(u, t));
    terms
}

/// A matrix of 60 rows over 60 generators, each entry of which is a variable with a coefficient.
fn random_matrix(numbers: &mut Generator, p: u32) -> Vec<Vector> {
    let mut random_row = || {
        (0..60)
            .map(|position| {
                let mut exponents = [0; 6];
                exponents[(numbers.next_number() % 6) as usize] = 1;
                (position, exponents, numbers.next_coefficient(p))
            })
            .collect()
    };
    (0..60).map(|_| random_row()).collect()
}

fn print(coefficients: impl Iterator<Item = u32> + Clone) {
    println!(
        "{} terms, sum of the coefficients {}",
        coefficients.clone().count(),
        coefficients.fold(0, u32::wrapping_add)
    );
}

fn main() {
    let words: Vec<String> = std::env::args().skip(1).collect();
    let [job, rounds] = words.as_slice() else {
        panic!("usage: plain product|sum|kron|kron_of_any ROUNDS");
    };
    let rounds: u32 = rounds.parse().expect("a number of rounds");
    let p = black_box(32003);
    let mut numbers = Generator { state: 1 };
    match job.as_str() {
        "product" => {
            let left = random_polynomial(&mut numbers, p);
            let right = random_polynomial(&mut numbers, p);
            let mut out = product(&left, &right, p);
            for _ in 1..rounds {
                out = product(black_box(&left), &right, p);
            }
            print(out.iter().map(|t| t.1));
        }
        "sum" => {
            let left = random_vector(&mut numbers, p);
            let right = random_vector(&mut numbers, p);
            let mut out = sum(&left, &right, p);
            for _ in 1..rounds {
                out = sum(black_box(&left), &right, p);
            }
            print(out.iter().map(|t| t.2));
        }
        "kron" => {
            let rows = random_matrix(&mut numbers, p);
            let size = black_box(60);
            let mut out = kron(&rows, size);
            for _ in 1..rounds {
                out = kron(black_box(&rows), size);
            }
            print(out.iter().flatten().map(|t| t.2));
        }
        "kron_of_any" => {
            let rows = random_matrix(&mut numbers, p);
            let identity: Vec<Vector> = (0..60).map(|k| vec![(k, [0; 6], 1)]).collect();
            let mut out = kron_of_any(&rows, &identity, 60, p);
            for _ in 1..rounds {
                out = kron_of_any(black_box(&rows), &identity, 60, p);
            }
            print(out.iter().flatten().map(|t| t.2));
        }
        _ => panic!("no such job"),
    }
}
