//! A stand-in for what cafebabe uses of bitflags: a struct of bits with named constants.
#[macro_export]
macro_rules! bitflags {
    ($(#[$attribute:meta])* $vis:vis struct $name:ident : $bits:ty { $(const $flag:ident = $value:expr;)* }) => {
        $(#[$attribute])*
        #[derive(Clone, Copy, Debug, PartialEq, Eq)]
        $vis struct $name {
            bits: $bits,
        }

        impl $name {
            $(pub const $flag: $name = $name { bits: $value };)*
            const ALL: $bits = 0 $(| $value)*;

            pub const fn bits(&self) -> $bits {
                self.bits
            }

            pub const fn from_bits_truncate(bits: $bits) -> $name {
                $name { bits: bits & Self::ALL }
            }

            pub const fn from_bits(bits: $bits) -> Option<$name> {
                if bits & !Self::ALL == 0 { Some($name { bits }) } else { None }
            }

            pub const fn contains(&self, other: $name) -> bool {
                self.bits & other.bits == other.bits
            }
        }
    };
}
