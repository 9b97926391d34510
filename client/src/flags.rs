/// How numbers are written in the debug form, and whether records are laid out in lines.
#[derive(Clone, Copy, Debug, PartialEq, Eq)]
pub struct FormattingFlags(u64);

impl FormattingFlags {
    /// Decimal, upper digits, not alternate.
    pub const NEW: Self = FormattingFlags(0);
    pub const DEFAULT: Self = Self::NEW;

    /// Binary and decimal keep the case of the digits, as in const_format.
    pub const fn set_decimal(self) -> Self {
        FormattingFlags(self.0 % 4)
    }

    pub const fn set_hexadecimal(self) -> Self {
        FormattingFlags(4 + self.0 % 2)
    }

    pub const fn set_lower_hexadecimal(self) -> Self {
        FormattingFlags(6 + self.0 % 2)
    }

    pub const fn set_binary(self) -> Self {
        FormattingFlags(8 + self.0 % 4)
    }

    pub const fn set_alternate(self, is_alternate: bool) -> Self {
        FormattingFlags(self.0 / 2 * 2 + is_alternate as u64)
    }

    pub const fn is_alternate(self) -> bool {
        self.0 % 2 == 1
    }

    /// The number that the library knows these flags by: 4 for hexadecimal or 8 for binary, plus 2 for
    /// lower digits, plus 1 for alternate. It is below 12: the library refuses other numbers with 8
    /// and plays nothing, and no method here makes one.
    pub const fn number(self) -> u64 {
        self.0
    }
}
