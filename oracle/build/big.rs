//! Whole numbers of any size, as far as the tables need them.

/// Digits of 32 bits, lowest first, with no zero on top.
#[derive(Clone, PartialEq, Eq)]
pub struct Big(Vec<u32>);

impl Big {
    pub fn of(mut n: u128) -> Big {
        let mut digits = Vec::new();
        while n > 0 {
            digits.push(n as u32);
            n >>= 32;
        }
        Big(digits)
    }

    fn trimmed(mut self) -> Big {
        while self.0.last() == Some(&0) {
            self.0.pop();
        }
        self
    }

    fn digit(&self, i: usize) -> u64 {
        self.0.get(i).copied().unwrap_or(0) as u64
    }

    pub fn plus(&self, other: &Big) -> Big {
        let mut out = Vec::new();
        let mut carry = 0;
        for i in 0..self.0.len().max(other.0.len()) + 1 {
            let sum = self.digit(i) + other.digit(i) + carry;
            out.push(sum as u32);
            carry = sum >> 32;
        }
        Big(out).trimmed()
    }

    /// The difference, where `other` is not the larger.
    pub fn minus(&self, other: &Big) -> Big {
        let mut out = Vec::new();
        let mut borrow = 0;
        for i in 0..self.0.len() {
            let take = other.digit(i) + borrow;
            let have = self.digit(i);
            borrow = (have < take) as u64;
            out.push((have + (borrow << 32) - take) as u32);
        }
        assert_eq!(borrow, 0, "a difference below zero");
        Big(out).trimmed()
    }

    pub fn times(&self, other: &Big) -> Big {
        if self.0.len() > other.0.len() {
            return other.times(self);
        }
        let mut out = vec![0u32; self.0.len() + other.0.len() + 1];
        for (i, &a) in self.0.iter().enumerate() {
            let mut carry = 0u64;
            for j in 0..out.len() - i {
                let sum = a as u64 * other.digit(j) + out[i + j] as u64 + carry;
                out[i + j] = sum as u32;
                carry = sum >> 32;
            }
        }
        Big(out).trimmed()
    }

    fn at_least(&self, other: &Big) -> bool {
        if self.0.len() != other.0.len() {
            return self.0.len() > other.0.len();
        }
        self.0.iter().rev().ge(other.0.iter().rev())
    }

    /// The quotient rounded down, where it is below 2^64.
    pub fn over(&self, divisor: &Big) -> u64 {
        let (mut rest, mut quotient) = (self.clone(), 0);
        for bit in (0..64).rev() {
            let part = divisor.times(&Big::of(1 << bit));
            if rest.at_least(&part) {
                rest = rest.minus(&part);
                quotient |= 1 << bit;
            }
        }
        assert!(!rest.at_least(divisor), "a quotient of more than 64 bits");
        quotient
    }
}
