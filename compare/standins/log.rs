//! Stands in for the crate `log`: messages go nowhere.
#[macro_export]
macro_rules! error { ($($t:tt)*) => {{}} }
#[macro_export]
macro_rules! warn { ($($t:tt)*) => {{}} }
#[macro_export]
macro_rules! trace { ($($t:tt)*) => {{}} }
