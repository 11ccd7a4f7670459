//! Whole numbers of any size, as far as counting readings needs them.
use std::cmp::Ordering;

/// Digits to the base 2^32, lowest first, no zero on top.
#[derive(Clone, Debug, PartialEq, Eq, Default)]
pub struct Big(Vec<u32>);

impl Big {
    pub fn new(n: u32) -> Big {
        Big(if n == 0 { vec![] } else { vec![n] })
    }

    pub fn is_zero(&self) -> bool {
        self.0.is_empty()
    }

    /// The number where it fits, else None.
    pub fn small(&self) -> Option<u64> {
        match self.0[..] {
            [] => Some(0),
            [a] => Some(a.into()),
            [a, b] => Some(u64::from(b) << 32 | u64::from(a)),
            _ => None,
        }
    }

    fn trimmed(mut digits: Vec<u32>) -> Big {
        while digits.last() == Some(&0) {
            digits.pop();
        }
        Big(digits)
    }

    pub fn plus(&self, other: &Big) -> Big {
        let mut digits = Vec::with_capacity(self.0.len().max(other.0.len()) + 1);
        let mut carry = 0u64;
        for place in 0..self.0.len().max(other.0.len()) {
            let sum = carry
                + u64::from(*self.0.get(place).unwrap_or(&0))
                + u64::from(*other.0.get(place).unwrap_or(&0));
            digits.push(sum as u32);
            carry = sum >> 32;
        }
        digits.push(carry as u32);
        Big::trimmed(digits)
    }

    /// `self - other`, where other is not larger.
    pub fn minus(&self, other: &Big) -> Big {
        let mut digits = Vec::with_capacity(self.0.len());
        let mut borrow = 0i64;
        for place in 0..self.0.len() {
            let mut left =
                i64::from(self.0[place]) - i64::from(*other.0.get(place).unwrap_or(&0)) - borrow;
            borrow = i64::from(left < 0);
            left += borrow << 32;
            digits.push(left as u32);
        }
        assert_eq!(borrow, 0, "a larger number was taken off");
        Big::trimmed(digits)
    }

    pub fn times(&self, other: &Big) -> Big {
        let mut digits = vec![0u32; self.0.len() + other.0.len()];
        for (i, &a) in self.0.iter().enumerate() {
            let mut carry = 0u64;
            for (j, &b) in other.0.iter().enumerate() {
                let sum = u64::from(a) * u64::from(b) + u64::from(digits[i + j]) + carry;
                digits[i + j] = sum as u32;
                carry = sum >> 32;
            }
            digits[i + other.0.len()] = carry as u32;
        }
        Big::trimmed(digits)
    }

    /// The quotient and the remainder by a number above 0: long division, one bit after the other.
    pub fn divided(&self, by: &Big) -> (Big, Big) {
        assert!(!by.is_zero(), "division by 0");
        if let (Some(a), Some(b)) = (self.small(), by.small()) {
            return (Big::of_u64(a / b), Big::of_u64(a % b));
        }
        if by.0 == [1] {
            return (self.clone(), Big::new(0));
        }
        let mut quotient = vec![0u32; self.0.len()];
        let mut rest = Big::new(0);
        for place in (0..self.0.len() * 32).rev() {
            rest = rest.plus(&rest);
            if self.0[place / 32] >> (place % 32) & 1 == 1 {
                rest = rest.plus(&Big::new(1));
            }
            if rest >= *by {
                rest = rest.minus(by);
                quotient[place / 32] |= 1 << (place % 32);
            }
        }
        (Big::trimmed(quotient), rest)
    }

    pub fn of_u64(n: u64) -> Big {
        Big::trimmed(vec![n as u32, (n >> 32) as u32])
    }
}

impl PartialOrd for Big {
    fn partial_cmp(&self, other: &Big) -> Option<Ordering> {
        Some(self.cmp(other))
    }
}

impl Ord for Big {
    fn cmp(&self, other: &Big) -> Ordering {
        let lengths = self.0.len().cmp(&other.0.len());
        lengths.then_with(|| self.0.iter().rev().cmp(other.0.iter().rev()))
    }
}

#[cfg(test)]
mod tests {
    use super::Big;

    #[test]
    fn powers_and_back() {
        let three = Big::new(3);
        let mut power = Big::new(1);
        for _ in 0..200 {
            power = power.times(&three);
        }
        let (half, rest) = power.divided(&Big::new(7));
        assert_eq!(half.times(&Big::new(7)).plus(&rest), power);
        assert!(rest < Big::new(7));
        assert_eq!(power.minus(&power), Big::new(0));
        for _ in 0..200 {
            let (quotient, rest) = power.divided(&three);
            assert!(rest.is_zero());
            power = quotient;
        }
        assert_eq!(power, Big::new(1));
    }
}
