//! The text of a sheet: decimals parted by spaces or newlines, and what the program prints for it.

use crate::plan::plan_call;
use crate::Refusal;

/// Only the bytes of space and newline part numbers; every other byte that is no digit gives 1.
pub fn words(text: &[u8]) -> Result<Vec<u64>, Refusal> {
    text.split(|&byte| byte == b' ' || byte == b'\n')
        .filter(|number| !number.is_empty())
        .map(|number| word(number).ok_or(1))
        .collect()
}

/// Leading zeros are allowed, in any number, so the value is reckoned digit by digit.
fn word(number: &[u8]) -> Option<u64> {
    let mut value: u64 = 0;
    for &byte in number {
        if !byte.is_ascii_digit() {
            return None;
        }
        value = value.checked_mul(10)?.checked_add(u64::from(byte - b'0'))?;
    }
    Some(value)
}

/// The output of the program for a text on standard input.
pub fn printed(text: &[u8]) -> String {
    match words(text) {
        Ok(sheet) => plan_call(&sheet).text(),
        Err(number) => format!("refused {number}\n"),
    }
}
