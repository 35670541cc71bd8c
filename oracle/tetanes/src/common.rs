// SPDX-License-Identifier: MIT OR Apache-2.0
//! Stands in for common.rs.

#[derive(Debug, Copy, Clone, PartialEq, Eq)]
pub enum ResetKind {
    Soft,
    Hard,
}
