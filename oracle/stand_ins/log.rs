//! Stand-in for the crate `log`: nothing is logged, and no argument is evaluated.

#[macro_export]
macro_rules! trace {
    ($($argument:tt)*) => {
        if false {
            let _ = format!($($argument)*);
        }
    };
}

pub use trace as debug;
pub use trace as warn;
