//! Named bits of a number.

pub struct Flag<T> {
    pub name: &'static str,
    pub value: T,
}

pub trait Flags: Sized + 'static {
    type Bits;

    fn flags<'a>() -> &'a [Flag<Self>];
    fn bits(&self) -> Self::Bits;
    fn from_bits_retain(bits: Self::Bits) -> Self;
}

macro_rules! bitflag_items {
    (impl $flags:ident: $bits:ty { $(const $name:ident = $value:expr;)* }) => {
        impl $flags {
            $(pub const $name: $flags = $flags($value);)*

            pub const FLAGS: &'static [$crate::shim::bitflags::Flag<$flags>] =
                &[$($crate::shim::bitflags::Flag { name: stringify!($name), value: $flags($value) }),*];

            pub const fn contains(&self, other: $flags) -> bool {
                self.0 & other.0 == other.0
            }

            pub const fn intersects(&self, other: $flags) -> bool {
                self.0 & other.0 != 0
            }

            pub const fn union(self, other: $flags) -> $flags {
                $flags(self.0 | other.0)
            }
        }
    };
}

pub(crate) use bitflag_items;
