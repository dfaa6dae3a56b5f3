//! Stand-in: as much of flagset as obj/symbols.rs and cfa.rs need to compile.
use std::{
    fmt,
    marker::PhantomData,
    ops::{BitAnd, BitAndAssign, BitOr, BitOrAssign, Not},
};

pub trait Flags: Copy + fmt::Debug {
    const ALL: u32;
    fn bit(self) -> u32;
}

pub struct FlagSet<F: Flags>(u32, PhantomData<F>);

impl<F: Flags> FlagSet<F> {
    fn of(bits: u32) -> Self { Self(bits & F::ALL, PhantomData) }

    pub fn bits(self) -> u32 { self.0 }

    pub fn contains(self, other: impl Into<FlagSet<F>>) -> bool {
        let other = other.into().0;
        self.0 & other == other
    }
}

impl<F: Flags> Copy for FlagSet<F> {}

impl<F: Flags> Clone for FlagSet<F> {
    fn clone(&self) -> Self { *self }
}

impl<F: Flags> Default for FlagSet<F> {
    fn default() -> Self { Self::of(0) }
}

impl<F: Flags> PartialEq for FlagSet<F> {
    fn eq(&self, other: &Self) -> bool { self.0 == other.0 }
}

impl<F: Flags> Eq for FlagSet<F> {}

impl<F: Flags> fmt::Debug for FlagSet<F> {
    fn fmt(&self, f: &mut fmt::Formatter<'_>) -> fmt::Result { write!(f, "{:#x}", self.0) }
}

impl<F: Flags> From<F> for FlagSet<F> {
    fn from(flag: F) -> Self { Self::of(flag.bit()) }
}

impl<F: Flags> Not for FlagSet<F> {
    type Output = Self;

    fn not(self) -> Self { Self::of(!self.0) }
}

impl<F: Flags, R: Into<FlagSet<F>>> BitAnd<R> for FlagSet<F> {
    type Output = Self;

    fn bitand(self, other: R) -> Self { Self::of(self.0 & other.into().0) }
}

impl<F: Flags, R: Into<FlagSet<F>>> BitOr<R> for FlagSet<F> {
    type Output = Self;

    fn bitor(self, other: R) -> Self { Self::of(self.0 | other.into().0) }
}

impl<F: Flags, R: Into<FlagSet<F>>> BitAndAssign<R> for FlagSet<F> {
    fn bitand_assign(&mut self, other: R) { self.0 &= other.into().0 }
}

impl<F: Flags, R: Into<FlagSet<F>>> BitOrAssign<R> for FlagSet<F> {
    fn bitor_assign(&mut self, other: R) { self.0 |= other.into().0 }
}

#[macro_export]
macro_rules! flags {
    ($(#[$m:meta])* $v:vis enum $n:ident : u32 { $($(#[$fm:meta])* $f:ident),* $(,)? }) => {
        $(#[$m])*
        #[derive(Debug, Copy, Clone, PartialEq, Eq)]
        $v enum $n { $($(#[$fm])* $f),* }

        impl $crate::Flags for $n {
            const ALL: u32 = 0 $(| 1u32 << ($n::$f as u32))*;

            fn bit(self) -> u32 { 1u32 << (self as u32) }
        }

        impl ::core::ops::Not for $n {
            type Output = $crate::FlagSet<$n>;

            fn not(self) -> $crate::FlagSet<$n> { !$crate::FlagSet::from(self) }
        }

        impl<R: Into<$crate::FlagSet<$n>>> ::core::ops::BitOr<R> for $n {
            type Output = $crate::FlagSet<$n>;

            fn bitor(self, other: R) -> $crate::FlagSet<$n> { $crate::FlagSet::from(self) | other }
        }
    };
}
