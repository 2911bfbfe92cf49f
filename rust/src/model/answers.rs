//! Answer frames.

use super::finding::check;
use super::image::pc_and_epc;
use super::LONGEST_ANSWER;

/// An answer frame's type, code and parameters.
pub(super) struct Answer {
    kind: u8,
    code: u8,
    parameters: [u8; LONGEST_ANSWER],
    count: usize,
}

impl Answer {
    pub(super) fn new(kind: u8, code: u8) -> Answer {
        Answer {
            kind,
            code,
            parameters: [0; LONGEST_ANSWER],
            count: 0,
        }
    }

    pub(super) fn byte(mut self, b: u8) -> Answer {
        self.parameters[self.count] = b;
        self.count += 1;
        self
    }

    pub(super) fn bytes(mut self, bytes: &[u8]) -> Answer {
        self.parameters[self.count..self.count + bytes.len()].copy_from_slice(bytes);
        self.count += bytes.len();
        self
    }

    /// "Tail" is "one byte 2 + 2L, the PC, the EPC".
    pub(super) fn tail(self, image: &[u8]) -> Answer {
        let pc_and_epc = pc_and_epc(image);
        self.byte(pc_and_epc.len() as u8).bytes(pc_and_epc)
    }

    /// "An error answer is one with code FF." Its first parameter is the error byte.
    pub(super) fn error(&self) -> Option<u8> {
        (self.code == 0xFF).then_some(self.parameters[0])
    }

    /// "Bytes: BB, type, code, PL as two bytes high first, PL parameter bytes, check, 7E."
    pub(super) fn write(&self, output: &mut [u8]) -> usize {
        let n = self.count;
        output[0] = 0xBB;
        output[1] = self.kind;
        output[2] = self.code;
        output[3] = (n / 256) as u8;
        output[4] = (n % 256) as u8;
        output[5..5 + n].copy_from_slice(&self.parameters[..n]);
        output[5 + n] = check(&output[1..5 + n]);
        output[6 + n] = 0x7E;
        7 + n
    }
}

/// "A plain error frame has code FF and one byte"
pub(super) fn plain_error(byte: u8) -> Answer {
    Answer::new(1, 0xFF).byte(byte)
}

/// "a tag error frame has code FF, the byte and the tail"
pub(super) fn tag_error(byte: u8, image: &[u8]) -> Answer {
    Answer::new(1, 0xFF).byte(byte).tail(image)
}

/// "tail, 00", the answer of a command that changed the tag.
pub(super) fn done(code: u8, image: &[u8]) -> Answer {
    Answer::new(1, code).tail(image).byte(0)
}
