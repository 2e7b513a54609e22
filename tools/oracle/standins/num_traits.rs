//! Stand-in for the crate `num_traits`.
//!
//! The judged crate names two of its traits as bounds and calls no method of either. All that it
//! leans on is that an element can be copied, so the two stand here as marks on the four element
//! types.

pub trait Unsigned {}

pub trait PrimInt: Copy {}

macro_rules! mark {
    ($($element:ty),*) => {
        $(
            impl Unsigned for $element {}
            impl PrimInt for $element {}
        )*
    };
}

mark!(u8, u16, u32, u64);
