//! Stand-in for the crate `const_for`.
//!
//! A counted loop that may also stand in a `const fn`, where `for` may not: the same count written
//! with `while`. It hands each number of the range to the body, rising, and does nothing else.

#[macro_export]
macro_rules! const_for {
    ($i:ident in $range:expr => $body:block) => {{
        let range: ::core::ops::Range<usize> = $range;
        let mut next = range.start;
        while next < range.end {
            let $i = next;
            $body
            next += 1;
        }
    }};
}
