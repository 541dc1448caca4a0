//! Numbers: what a form of them holds, and how they are read and written.

const POWERS: [i128; 39] = powers_of_ten();
/// A number of so many digits fits in 64 bits, whatever they are.
pub const SHORT: usize = 18;

/// Whole numbers of some bits, or with a scale decimals in parts of their last digit.
#[derive(Clone, Copy, Debug, PartialEq, Eq)]
pub struct NumberForm {
    least: i128,
    most: i128,
    scale: Option<u32>,
    summed: bool,
    /// Whether it holds all short numbers, those without a sign where it has none.
    holds_short: bool,
}

const fn powers_of_ten() -> [i128; 39] {
    let mut powers = [1; 39];
    let mut place = 1;
    while place < powers.len() {
        powers[place] = powers[place - 1] * 10;
        place += 1;
    }
    powers
}

impl NumberForm {
    pub const fn signed(bits: u32) -> NumberForm {
        NumberForm {
            least: i128::MIN >> (128 - bits),
            most: i128::MAX >> (128 - bits),
            scale: None,
            summed: true,
            holds_short: bits >= 64,
        }
    }

    /// Numbers of at most 64 bits with no sign.
    pub const fn unsigned(bits: u32) -> NumberForm {
        NumberForm {
            least: 0,
            most: (1 << bits) - 1,
            scale: None,
            summed: true,
            holds_short: bits >= 64,
        }
    }

    pub const fn unsummed(self) -> NumberForm {
        NumberForm {
            summed: false,
            ..self
        }
    }

    pub const fn with_scale(self, scale: u32) -> NumberForm {
        NumberForm {
            scale: Some(scale),
            ..self
        }
    }

    pub fn summed(self) -> bool {
        self.summed
    }

    pub fn scale(self) -> Option<u32> {
        self.scale
    }

    pub fn is_signed(self) -> bool {
        self.least < 0
    }

    /// Whether all short whole numbers are of this form, those without a sign where it has none.
    pub fn holds_short(self) -> bool {
        self.holds_short && self.scale.is_none()
    }

    /// A short number, of whose digits some stand behind the point, if it is of this form.
    #[inline(always)]
    pub fn of_short(self, number: i64, behind: usize) -> Option<i128> {
        let mut number = i128::from(number);
        if let Some(scale) = self.scale {
            let missing = (scale as usize).checked_sub(behind)?;
            number = number.checked_mul(POWERS[missing])?;
        }
        (self.holds_short || self.holds(number)).then_some(number)
    }

    fn holds(self, number: i128) -> bool {
        self.least <= number && number <= self.most
    }

    /// A sum as it is after wrapping in this form.
    pub fn wrapped(self, sum: i128) -> i128 {
        let extra = (self.most as u128).leading_zeros() - u32::from(self.is_signed());
        if self.is_signed() {
            sum << extra >> extra
        } else {
            ((sum as u128) << extra >> extra) as i128
        }
    }

    /// A field of any length that is a number of this form: a sign, digits, and with a scale a point.
    pub fn read(self, field: &[u8]) -> Option<i128> {
        let digits = field.strip_prefix(b"+").or(match field {
            [b'-', digits @ ..] if self.is_signed() => Some(digits),
            _ => None,
        });
        let digits = digits.unwrap_or(field);
        let point = digits.iter().position(|&byte| byte == b'.');
        let (whole, part) = match (point, self.scale) {
            (Some(place), Some(_)) => (&digits[..place], &digits[place + 1..]),
            _ => (digits, &digits[..0]),
        };
        let missing = (self.scale.unwrap_or(0) as usize).checked_sub(part.len())?;
        if whole.len() + part.len() == 0 {
            return None;
        }
        let sign = if field[0] == b'-' { -1 } else { 1 };
        let mut number: i128 = 0;
        for byte in whole.iter().chain(part) {
            let digit = byte.is_ascii_digit().then(|| i128::from(byte - b'0'))?;
            number = number.checked_mul(10)?.checked_add(sign * digit)?;
        }
        let number = number.checked_mul(POWERS[missing])?;
        self.holds(number).then_some(number)
    }

    /// Appends a number, a decimal with all its digits behind the point.
    pub fn write(self, number: i128, text: &mut Vec<u8>) {
        let mut digits = [b'0'; 40];
        let mut begin = digits.len();
        let scale = self.scale.unwrap_or(0) as usize;
        let mut rest = number.unsigned_abs();
        while rest > u128::from(u64::MAX) {
            begin -= 1;
            digits[begin] = b'0' + (rest % 10) as u8;
            rest /= 10;
        }
        let mut rest = rest as u64;
        while rest > 0 {
            begin -= 1;
            digits[begin] = b'0' + (rest % 10) as u8;
            rest /= 10;
        }
        let point = digits.len() - scale;
        if number < 0 {
            text.push(b'-');
        }
        text.extend_from_slice(&digits[begin.min(point - 1)..point]);
        if scale > 0 {
            text.push(b'.');
            text.extend_from_slice(&digits[point..]);
        }
    }
}

/// A number with the digits from a place on behind its own, which is right where they are not over `SHORT`
/// together, and the place behind them.
#[inline(always)]
pub fn digits(text: &[u8], from: usize, number: u64) -> (u64, usize) {
    let mut number = number;
    let mut place = from;
    while let Some(byte) = text.get(place) {
        let digit = byte.wrapping_sub(b'0');
        if digit > 9 {
            break;
        }
        number = number.wrapping_mul(10).wrapping_add(digit.into());
        place += 1;
    }
    (number, place)
}
