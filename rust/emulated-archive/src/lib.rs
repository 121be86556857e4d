//! A static library with the archive's functions for a machine that is not x86-64: each hands its
//! call to the emulated archive (`src/emulated.rs` of `tannoplex`). C tests are linked with it
//! natively, since there are no sanitizers for x86-64 there. It is for tests, not for a product.
//!
//! On x86-64 the archive itself is linked, and this is empty.

#[cfg(not(target_arch = "x86_64"))]
use tannoplex as _;
