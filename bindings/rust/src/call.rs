//! The one way into the archive.

/// Calls a function of the archive. A slice behind `&` is handed on as a pointer to read from and
/// its length, one behind `&mut` as a pointer to write to and its length; all else as it is.
///
/// All slices are borrowed until the call has ended, so that the compiler refuses one that is
/// written and overlaps another. Nothing else in this crate is unsafe.
macro_rules! call {
    ($name:ident($($arguments:tt)*)) => {
        $crate::call::call!(@ $name [] $($arguments)*)
    };
    (@ $name:ident [$($done:expr,)*] &mut $slice:expr $(, $($rest:tt)*)?) => {{
        let lent: &mut [_] = &mut $slice[..];
        $crate::call::call!(@ $name [$($done,)* lent.as_mut_ptr(), lent.len(),] $($($rest)*)?)
    }};
    (@ $name:ident [$($done:expr,)*] & $slice:expr $(, $($rest:tt)*)?) => {{
        let lent: &[_] = &$slice[..];
        $crate::call::call!(@ $name [$($done,)* lent.as_ptr(), lent.len(),] $($($rest)*)?)
    }};
    (@ $name:ident [$($done:expr,)*] $number:expr $(, $($rest:tt)*)?) => {
        $crate::call::call!(@ $name [$($done,)* $number,] $($($rest)*)?)
    };
    (@ $name:ident [$($done:expr,)*]) => {{
        // SAFETY: each pointer and length is that of a slice which is borrowed over the call, one
        // that is written as mutable. So it is good for its length, and what is written overlaps
        // nothing else. There is no wrong content.
        #[allow(unsafe_code)]
        let answer = unsafe { $crate::raw::$name($($done),*) };
        answer
    }};
}

pub(crate) use call;
