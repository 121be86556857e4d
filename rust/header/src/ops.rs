//! The ops of rows: the highest byte of a row's first word.

/// x becomes k.
pub const SET: u8 = 0x00;
/// x becomes x+y modulo 2^32.
pub const ADD: u8 = 0x01;
/// x becomes x-y modulo 2^32.
pub const SUB: u8 = 0x02;
/// x becomes the number of one bits in y.
pub const ONES: u8 = 0x03;
/// x becomes the number of zero bits below the lowest one bit of y; 32 where y is 0.
pub const LOW: u8 = 0x04;
/// Where x is 0 on at p+1+n, else at p+1.
pub const SKIP: u8 = 0x10;
/// On at p+1+n.
pub const JUMP: u8 = 0x11;
/// The value of x is sent under message number k.
pub const SEND: u8 = 0x20;
/// Message found: x becomes its value, on at p+1; none: on at p+1+n.
pub const RECV: u8 = 0x30;
