//! A stream by blocks of whole lines, so that it may be larger than memory.

use std::io::{self, ErrorKind, Read};

/// The bytes that are asked for at a time.
const BLOCK: usize = 1 << 16;

pub struct Blocks<R> {
    from: R,
    /// What was read and not yet given, behind what was.
    bytes: Vec<u8>,
    given: usize,
    ended: bool,
}

impl<R: Read> Blocks<R> {
    pub fn of(from: R) -> Blocks<R> {
        Blocks { from, bytes: Vec::new(), given: 0, ended: false }
    }

    /// As many whole lines as have come, at least one; the last line of all may lack its end.
    pub fn next(&mut self) -> io::Result<Option<&[u8]>> {
        self.bytes.drain(..self.given);
        self.given = 0;
        // what is left of the last block has no line end
        let mut searched = self.bytes.len();
        while !self.ended {
            self.more()?;
            if let Some(end) = self.bytes[searched..].iter().rposition(|&b| b == b'\n') {
                self.given = searched + end + 1;
                return Ok(Some(&self.bytes[..self.given]));
            }
            searched = self.bytes.len();
        }
        self.given = self.bytes.len();
        Ok((self.given > 0).then(|| &self.bytes[..]))
    }

    /// Reads what there is, and waits if there is nothing.
    fn more(&mut self) -> io::Result<()> {
        let length = self.bytes.len();
        self.bytes.resize(length + BLOCK, 0);
        let read = loop {
            match self.from.read(&mut self.bytes[length..]) {
                Err(why) if why.kind() == ErrorKind::Interrupted => {}
                done => break done,
            }
        };
        let count = *read.as_ref().unwrap_or(&0);
        self.bytes.truncate(length + count);
        self.ended = count == 0;
        read.map(|_| ())
    }
}

#[cfg(test)]
mod tests {
    use super::*;

    /// Gives parts of a text, one for each time that it is asked.
    struct Parts(Vec<&'static [u8]>);

    impl Read for Parts {
        fn read(&mut self, into: &mut [u8]) -> io::Result<usize> {
            match self.0.is_empty() {
                true => Ok(0),
                false => self.0.remove(0).read(into),
            }
        }
    }

    fn blocks(parts: &[&'static [u8]]) -> Vec<Vec<u8>> {
        let mut blocks = Blocks::of(Parts(parts.to_vec()));
        std::iter::from_fn(|| blocks.next().expect("a good stream").map(<[u8]>::to_vec)).collect()
    }

    #[test]
    fn whole_lines() {
        assert_eq!(blocks(&[]), Vec::<Vec<u8>>::new());
        assert_eq!(blocks(&[b"a"]), [b"a"]);
        assert_eq!(blocks(&[b"a\nb\n"]), [b"a\nb\n"]);
        assert_eq!(blocks(&[b"a\nb", b"c", b"\r\n", b"d"]), [&b"a\n"[..], b"bc\r\n", b"d"]);
        assert_eq!(blocks(&[b"a", b"\r", b"\n\n", b"\n"]), [&b"a\r\n\n"[..], b"\n"]);
    }

    #[test]
    fn a_line_may_be_longer_than_a_block() {
        let long = [vec![b'a'; 5 * BLOCK + 3], b"\nb".to_vec()].concat();
        let mut blocks = Blocks::of(&long[..]);
        assert_eq!(blocks.next().expect("good"), Some(&long[..long.len() - 1]));
        assert_eq!(blocks.next().expect("good"), Some(&b"b"[..]));
        assert_eq!(blocks.next().expect("good"), None);
        assert_eq!(blocks.next().expect("good"), None);
    }

    #[test]
    fn what_was_there_before_a_failure_is_given() {
        struct Fails;
        impl Read for Fails {
            fn read(&mut self, _: &mut [u8]) -> io::Result<usize> {
                Err(io::Error::new(ErrorKind::Other, "broken"))
            }
        }
        let mut blocks = Blocks::of((&b"a\nb"[..]).chain(Fails));
        assert_eq!(blocks.next().expect("good"), Some(&b"a\n"[..]));
        assert_eq!(blocks.next().expect_err("broken").to_string(), "broken");
    }
}
