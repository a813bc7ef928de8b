//! The answer to one line of a call list and its 46 columns.

pub const ANSWER_LENGTH: usize = 46;

#[derive(Debug, Clone, Copy, PartialEq, Eq)]
pub struct Answer {
    pub refusal: u8,
    pub state: u8,
    pub published: u8,
    pub rate: u64,
    pub inherent_loss: u64,
}

impl Answer {
    /// The columns and the newline.
    pub fn write(&self, to: &mut [u8; ANSWER_LENGTH + 1]) {
        right_justify(u64::from(self.refusal), &mut to[..2]);
        right_justify(u64::from(self.state), &mut to[2..4]);
        right_justify(u64::from(self.published), &mut to[4..6]);
        right_justify(self.rate, &mut to[6..26]);
        right_justify(self.inherent_loss, &mut to[26..46]);
        to[46] = b'\n';
    }
}

/// A number at the end of a column that has room for it, spaces before it.
pub fn right_justify(mut value: u64, column: &mut [u8]) {
    let mut place = column.len();
    loop {
        place -= 1;
        column[place] = b'0' + (value % 10) as u8;
        value /= 10;
        if value == 0 {
            break;
        }
    }
    column[..place].fill(b' ');
}
