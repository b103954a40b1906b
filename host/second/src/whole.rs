//! Whole numbers of any size, as far as reading a number by its definition needs them.

/// A whole number that is not negative: digits to the base of two to the power of 32, the lowest first, the highest not zero.
#[derive(Clone, PartialEq, Eq, Debug, Default)]
pub struct Whole(Vec<u32>);

impl Whole {
    /// Ten times as much, and this.
    pub fn ten_times_and(mut self, more: u8) -> Whole {
        let mut carry = u64::from(more);
        for digit in &mut self.0 {
            let product = 10 * u64::from(*digit) + carry;
            (*digit, carry) = (product as u32, product >> 32);
        }
        if carry > 0 {
            self.0.push(carry as u32);
        }
        self
    }

    /// A tenth, where that is a whole number.
    pub fn tenth(mut self) -> Option<Whole> {
        let mut rest = 0;
        for digit in self.0.iter_mut().rev() {
            let left = rest << 32 | u64::from(*digit);
            (*digit, rest) = ((left / 10) as u32, left % 10);
        }
        if self.0.last() == Some(&0) {
            self.0.pop();
        }
        (rest == 0).then_some(self)
    }

    /// The same as a number of 64 bits, where it is one.
    pub fn to_i64(&self) -> Option<i64> {
        let mut high_first = self.0.iter().rev();
        high_first.try_fold(0i64, |sum, digit| sum.checked_mul(1 << 32)?.checked_add(i64::from(*digit)))
    }
}

#[cfg(test)]
mod tests {
    use super::*;

    fn of(digits: &str) -> Whole {
        digits.bytes().fold(Whole::default(), |whole, digit| whole.ten_times_and(digit - b'0'))
    }

    #[test]
    fn as_a_number_of_64_bits() {
        for n in [0, 1, 9, 10, 1 << 31, (1 << 32) - 1, 1 << 32, 10i64.pow(18), i64::MAX - 1, i64::MAX] {
            assert_eq!(of(&n.to_string()).to_i64(), Some(n));
            assert_eq!(of(&format!("000{n}")), of(&n.to_string()), "zeros in front count nothing");
        }
        for digits in ["9223372036854775808", "18446744073709551616", &"9".repeat(140)] {
            assert_eq!(of(digits).to_i64(), None, "{digits}");
        }
    }

    #[test]
    fn tenths() {
        assert_eq!(of("0").tenth(), Some(of("0")));
        for digits in ["1", "4294967296", "9223372036854775807", &"123456789".repeat(15)] {
            let mut whole = of(digits);
            for _ in 0..99 {
                whole = whole.ten_times_and(0);
            }
            for _ in 0..99 {
                whole = whole.tenth().expect("ten times a whole number");
            }
            assert_eq!(whole, of(digits));
            let last = digits.ends_with('0');
            assert_eq!(whole.tenth().is_some(), last, "{digits}");
        }
        // Ends in every digit: only the one that ends in 0 has a whole tenth.
        let ends = (0..10).map(|end| of(&format!("1844674407370955161{end}")).tenth());
        assert_eq!(ends.map(|tenth| tenth.is_some()).collect::<Vec<_>>(), [[true].as_slice(), &[false; 9]].concat());
    }
}
