//! Messages, and the frames that carry them.

/// The bytes of a message.
#[derive(Default)]
pub struct Message(pub Vec<u8>);

impl Message {
    pub fn bytes(&mut self, bytes: &[u8]) {
        self.0.extend_from_slice(bytes);
    }

    pub fn index(&mut self, index: u16) {
        self.bytes(&index.to_le_bytes());
    }

    /// A length in front of what has it.
    pub fn length(&mut self, length: usize) {
        self.bytes(&(length as u32).to_le_bytes());
    }

    pub fn text(&mut self, text: &str) {
        self.length(text.len());
        self.bytes(text.as_bytes());
    }

    /// A text that Rust formats: no byte of UTF-8 is `ff`, so `ff` ends it.
    pub fn formatted(&mut self, text: &str) {
        self.bytes(text.as_bytes());
        self.0.push(0xff);
    }
}

/// The rzCOBS code of a message.
pub fn code(message: &[u8]) -> Vec<u8> {
    let mut out = Vec::new();
    let (mut run, mut zeros) = (0, 0);
    for &byte in message {
        if run < 7 {
            if byte == 0 {
                zeros |= 1 << run;
            } else {
                out.push(byte);
            }
            run += 1;
            if run == 7 && zeros != 0 {
                out.push(zeros);
                (run, zeros) = (0, 0);
            }
        } else if byte == 0 {
            out.push((run - 7) as u8 | 0x80);
            (run, zeros) = (0, 0);
        } else {
            out.push(byte);
            run += 1;
            if run == 134 {
                out.push(0xff);
                (run, zeros) = (0, 0);
            }
        }
    }
    match run {
        0 => {}
        1..=6 => out.push((zeros | (0xff << run)) & 0x7f),
        _ => out.push((run - 7) as u8 | 0x80),
    }
    out
}
