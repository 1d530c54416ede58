//! The request as text: seven lines, each a key and its value [rules 11.1, 11.2].

pub mod read;
pub mod write;

use crate::words::request;

/// What stands behind a key: the number in a word of the request, or the reference that starts there.
#[derive(Clone, Copy)]
enum Value {
    Number(usize),
    Reference(usize),
}

/// The lines in their order, each with its key and the equals sign.
const LINES: [(&[u8], Value); 7] = [
    (b"user=", Value::Number(request::USER)),
    (b"op=", Value::Number(request::OPERATION)),
    (b"ref=", Value::Reference(request::FIRST)),
    (b"ref2=", Value::Reference(request::SECOND)),
    (b"a=", Value::Number(request::A)),
    (b"b=", Value::Number(request::B)),
    (b"c=", Value::Number(request::C)),
];

/// What stands between the names of a reference.
pub const DOT: u8 = b'.';
pub const END_OF_LINE: u8 = b'\n';
pub const BASE: u32 = 10;
pub const ZERO: u8 = b'0';
