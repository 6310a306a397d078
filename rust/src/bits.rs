//! Sets of bits, each of which has a name.
#![forbid(unsafe_code)]

/// Gives a type over a `u8`, which has `NONE`, `ALL` and `NAMED`, what sets of bits have.
macro_rules! set_of_bits {
    ($set:ident) => {
        impl $set {
            /// The bits of the set, as C and scripts have them.
            #[must_use]
            pub const fn bits(self) -> u8 {
                self.0
            }

            /// The set of some bits, if each is one's.
            #[must_use]
            pub const fn from_bits(bits: u8) -> Option<$set> {
                if bits & !$set::ALL.0 == 0 {
                    Some($set(bits))
                } else {
                    None
                }
            }

            /// The set of the eight lowest bits, without those that are none's.
            pub(crate) const fn of_bits(bits: u32) -> $set {
                $set(bits.to_le_bytes()[0] & $set::ALL.0)
            }

            /// Whether all of another set are in this one.
            #[must_use]
            pub const fn contains(self, other: $set) -> bool {
                self.0 & other.0 == other.0
            }
        }

        impl std::ops::BitOr for $set {
            type Output = $set;

            fn bitor(self, other: $set) -> $set {
                $set(self.0 | other.0)
            }
        }

        impl std::ops::BitOrAssign for $set {
            fn bitor_assign(&mut self, other: $set) {
                *self = *self | other;
            }
        }

        impl std::ops::BitAnd for $set {
            type Output = $set;

            fn bitand(self, other: $set) -> $set {
                $set(self.0 & other.0)
            }
        }

        impl std::ops::BitAndAssign for $set {
            fn bitand_assign(&mut self, other: $set) {
                *self = *self & other;
            }
        }

        impl std::ops::Not for $set {
            type Output = $set;

            /// All that aren't in the set.
            fn not(self) -> $set {
                $set(!self.0 & $set::ALL.0)
            }
        }

        impl std::fmt::Debug for $set {
            fn fmt(&self, f: &mut std::fmt::Formatter<'_>) -> std::fmt::Result {
                if *self == $set::NONE {
                    return f.write_str("NONE");
                }
                let mut between = "";
                for (one, name) in $set::NAMED {
                    if self.contains(one) {
                        write!(f, "{between}{name}")?;
                        between = " | ";
                    }
                }
                Ok(())
            }
        }
    };
}
