//! Stand-ins for the plain outside crates that the original names: tracing, bitflags, byteorder.
//!
//! The oracle names this crate three times, once under each of those names.

use std::io::{self, Read};

/// Stands in for `tracing::Level`.
#[derive(Debug, Copy, Clone, PartialEq, Eq, PartialOrd, Ord)]
pub struct Level(u8);

impl Level {
    pub const TRACE: Self = Self(5);
}

/// Stands in for `tracing::level_filters`.
pub mod level_filters {
    /// As in a default build of tracing, so that the compiler's walk over its own blocks runs too.
    pub const STATIC_MAX_LEVEL: super::Level = super::Level::TRACE;
}

/// Checks the arguments of a log line and prints nothing.
#[macro_export]
macro_rules! silence {
    ($($arg:tt)+) => {
        if false {
            let _ = ::std::format_args!($($arg)+);
        }
    };
}

pub use silence as debug;
pub use silence as trace;
pub use silence as warn;

/// Stands in for `bitflags::bitflags`.
#[macro_export]
macro_rules! bitflags {
    ($(#[$about:meta])* $vis:vis struct $name:ident: $bits:ty {
        $($(#[$note:meta])* const $flag:ident = $value:expr;)*
    }) => {
        $(#[$about])*
        #[derive(Debug, Copy, Clone, PartialEq, Eq)]
        $vis struct $name($bits);

        impl $name {
            $($(#[$note])* pub const $flag: Self = Self($value);)*

            pub const fn bits(&self) -> $bits {
                self.0
            }

            pub const fn from_bits_truncate(bits: $bits) -> Self {
                Self(bits & (0 $(| $value)*))
            }
        }
    };
}

/// Stands in for `byteorder::LE`.
pub enum LE {}

/// Stands in for `byteorder::ReadBytesExt`; only the low byte first is ever asked for.
pub trait ReadBytesExt: Read {
    fn read_u32<Order>(&mut self) -> io::Result<u32> {
        let mut bytes = [0; 4];
        self.read_exact(&mut bytes)?;
        Ok(u32::from_le_bytes(bytes))
    }
}

impl<R: Read + ?Sized> ReadBytesExt for R {}
