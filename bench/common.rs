//! What the plain loops share: pseudorandom numbers, and the merge of two lists in falling order.

use std::cmp::Ordering;

pub struct Generator {
    pub state: u32,
}

impl Generator {
    pub fn next_number(&mut self) -> u32 {
        self.state = ((self.state as u64 * 1103515245 + 12345) % 2147483648) as u32;
        self.state / 65536
    }

    pub fn next_coefficient(&mut self, p: u32) -> u32 {
        self.next_number() % (p - 1) + 1
    }
}

/// The sum of two lists of terms, the greatest first. `add` gives the sum of two terms that stand at one place, unless it
/// is 0.
#[inline]
pub fn merge<T: Copy>(
    left: &[T],
    right: &[T],
    compare: impl Fn(&T, &T) -> Ordering,
    add: impl Fn(&T, &T) -> Option<T>,
) -> Vec<T> {
    let mut sum = Vec::with_capacity(left.len() + right.len());
    let (mut i, mut j) = (0, 0);
    while i < left.len() && j < right.len() {
        match compare(&left[i], &right[j]) {
            Ordering::Greater => {
                sum.push(left[i]);
                i += 1;
            }
            Ordering::Less => {
                sum.push(right[j]);
                j += 1;
            }
            Ordering::Equal => {
                if let Some(term) = add(&left[i], &right[j]) {
                    sum.push(term);
                }
                i += 1;
                j += 1;
            }
        }
    }
    sum.extend_from_slice(&left[i..]);
    sum.extend_from_slice(&right[j..]);
    sum
}
