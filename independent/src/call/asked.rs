//! What the calls of all halves have in common.

/// What a half is asked, but for the state, which it is lent in some form.
pub struct Asked {
    pub reading: u8,
    pub file: Vec<u8>,
    pub marks: Vec<u8>,
    pub x: u8,
}

/// A call with all that is asked, and what the function is given beside it.
macro_rules! call {
    ($call:ident, $asked:expr, $($field:ident $(: $value:expr)?),+) => {{
        let $crate::call::Asked { reading, file, marks, x } = $asked;
        $crate::call::Call::$call { reading, file, marks, x, $($field $(: $value)?),+ }
    }};
}
pub(crate) use call;
