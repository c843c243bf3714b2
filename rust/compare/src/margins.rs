//! Lends a buffer out of the middle of a larger one, and sees to it that
//! nothing around it was touched: a foreign function could write anywhere.

use types::Frame;

/// What can be lent: a value of it stands around a lent buffer.
pub trait Lent: Copy + PartialEq {
    const MARK: Self;
}

impl Lent for u8 {
    const MARK: u8 = 0xB7;
}

impl Lent for u64 {
    const MARK: u64 = 0xB7;
}

impl Lent for Frame {
    const MARK: Frame = Frame::written(0xB7);
}

/// Calls with a copy of the buffer that has marked places on both sides, and
/// takes over what the call left in it.
pub fn with_margins<T: Lent, R>(buffer: &mut [T], call: impl FnOnce(&mut [T]) -> R) -> R {
    // Uneven, so that bytes are lent from uneven addresses as well.
    let margin = 5 + buffer.len() % 8;
    let mut larger = vec![T::MARK; margin + buffer.len() + margin];
    let middle = margin..margin + buffer.len();
    larger[middle.clone()].copy_from_slice(buffer);
    let answer = call(&mut larger[middle.clone()]);
    buffer.copy_from_slice(&larger[middle.clone()]);
    let around = [&larger[..middle.start], &larger[middle.end..]];
    assert!(
        around.concat().iter().all(|place| *place == T::MARK),
        "something outside a lent buffer was written"
    );
    answer
}

#[cfg(test)]
mod tests {
    use super::*;

    #[test]
    fn what_the_call_writes_comes_back() {
        let mut buffer = [1_u64, 2, 3];
        let answer = with_margins(&mut buffer, |lent| {
            lent[1] = 9;
            lent.len()
        });
        assert_eq!((answer, buffer), (3, [1, 9, 3]));
    }

    #[test]
    fn an_empty_buffer_can_be_lent() {
        let mut buffer: [u8; 0] = [];
        assert!(with_margins(&mut buffer, |lent| lent.is_empty()));
    }
}
