//! A buffer that a call writes, filled before the call so that every byte it leaves untouched is seen, and with such bytes on
//! both sides of it.

const FILL: u8 = 0xAA;
const SIDE: usize = 16;

pub struct Buffer {
    bytes: Vec<u8>,
}

impl Buffer {
    pub fn new(len: usize) -> Buffer {
        Buffer { bytes: vec![FILL; len + 2 * SIDE] }
    }

    /// What the call is given.
    pub fn inside(&mut self) -> &mut [u8] {
        let end = self.bytes.len() - SIDE;
        &mut self.bytes[SIDE..end]
    }

    /// Holds every byte against the result and the zeros behind it; the bytes on both sides must be as they were.
    pub fn check(&self, name: &str, result: &[u8]) -> Result<(), String> {
        let end = self.bytes.len() - SIDE;
        for (i, &byte) in self.bytes.iter().enumerate() {
            let place = i as isize - SIDE as isize;
            let want = if i < SIDE || i >= end { FILL } else { *result.get(i - SIDE).unwrap_or(&0) };
            if byte != want {
                return Err(format!("{name}[{place}]: here {byte:02x}, wanted {want:02x}"));
            }
        }
        Ok(())
    }
}

#[cfg(test)]
mod tests {
    use super::*;

    #[test]
    fn every_byte_counts() {
        let mut buffer = Buffer::new(3);
        assert!(buffer.check("out", b"").is_err());
        buffer.inside().copy_from_slice(b"a\0\0");
        assert_eq!(buffer.check("out", b"a"), Ok(()));
        assert!(buffer.check("out", b"b").is_err());
        assert!(buffer.check("out", b"").is_err());
        buffer.bytes[SIDE + 3] = 0;
        assert_eq!(buffer.check("out", b"a").unwrap_err(), "out[3]: here 00, wanted aa");
    }
}
