//! Signed arithmetic (01, "Firing").

/// The eight operations of codes 16-23 and 32-39, in the order of their codes.
#[derive(Clone, Copy, Debug, PartialEq, Eq)]
pub enum Arithmetic {
    Add,
    Sub,
    Mul,
    Div,
    Rem,
    Lt,
    Le,
    Eq,
}

impl Arithmetic {
    pub const ALL: [Arithmetic; 8] = [
        Arithmetic::Add,
        Arithmetic::Sub,
        Arithmetic::Mul,
        Arithmetic::Div,
        Arithmetic::Rem,
        Arithmetic::Lt,
        Arithmetic::Le,
        Arithmetic::Eq,
    ];

    /// The result, or `None` for refusal 12. All results of two 32-bit operands
    /// fit 64 bits, where division truncates toward zero and the remainder has
    /// the dividend's sign, as 01 asks.
    pub fn apply(self, left: i32, right: i32) -> Option<i32> {
        let (a, b) = (i64::from(left), i64::from(right));
        let result = match self {
            Arithmetic::Add => a + b,
            Arithmetic::Sub => a - b,
            Arithmetic::Mul => a * b,
            Arithmetic::Div => a.checked_div(b)?,
            Arithmetic::Rem => a.checked_rem(b)?,
            Arithmetic::Lt => i64::from(a < b),
            Arithmetic::Le => i64::from(a <= b),
            Arithmetic::Eq => i64::from(a == b),
        };
        i32::try_from(result).ok()
    }
}
