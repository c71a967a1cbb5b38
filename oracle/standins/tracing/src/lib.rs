//! Stand-in for `tracing`: a warning that is not printed. Messages are no part of the comparison.

/// Takes a warning with its fields and drops it.
#[macro_export]
macro_rules! warn {
    ($($name:ident = $(%)? $value:expr),+ , $message:literal) => {{
        $( let _ = &$value; )+
        let _ = $message;
    }};
}
