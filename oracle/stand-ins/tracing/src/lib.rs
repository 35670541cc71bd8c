// SPDX-License-Identifier: MIT OR Apache-2.0
//! Stands in for `tracing`: messages are type-checked and dropped.

#[macro_export]
macro_rules! debug {
    ($($message:tt)+) => {{
        let _ = format_args!($($message)+);
    }};
}
