//! Lines of any bytes, of which only so much is kept as can matter.

use std::io::{self, BufRead};

pub struct Lines<R> {
    input: R,
    limit: usize,
    line: Vec<u8>,
}

impl<R: BufRead> Lines<R> {
    pub fn new(input: R, limit: usize) -> Lines<R> {
        Lines {
            input,
            limit,
            line: Vec::new(),
        }
    }

    /// The next line without its newline. Of a line over the limit only the first limit + 1
    /// bytes are kept. What stands behind the last newline is a line if it is not empty.
    pub fn read(&mut self) -> io::Result<Option<&[u8]>> {
        self.line.clear();
        loop {
            let chunk = self.input.fill_buf()?;
            if chunk.is_empty() {
                let at_end = self.line.is_empty();
                return Ok(if at_end { None } else { Some(&self.line) });
            }
            let newline = chunk.iter().position(|byte| *byte == b'\n');
            let part = &chunk[..newline.unwrap_or(chunk.len())];
            let room = self.limit + 1 - self.line.len();
            self.line.extend_from_slice(&part[..part.len().min(room)]);
            let used = part.len() + usize::from(newline.is_some());
            self.input.consume(used);
            if newline.is_some() {
                return Ok(Some(&self.line));
            }
        }
    }
}

#[cfg(test)]
mod tests {
    use super::*;

    fn lines(input: &[u8]) -> Vec<String> {
        let mut lines = Lines::new(io::BufReader::with_capacity(3, input), 5);
        let mut all = Vec::new();
        while let Some(line) = lines.read().unwrap() {
            all.push(String::from_utf8(line.to_vec()).unwrap());
        }
        all
    }

    #[test]
    fn the_end_with_and_without_newline() {
        assert_eq!(lines(b""), [""; 0]);
        assert_eq!(lines(b"\n"), [""]);
        assert_eq!(lines(b"ab\n\ncd"), ["ab", "", "cd"]);
        assert_eq!(lines(b"ab\n\ncd\n"), ["ab", "", "cd"]);
    }

    #[test]
    fn long_lines_are_cut_behind_the_limit() {
        assert_eq!(
            lines(b"12345\n123456\n12345678901\nx"),
            ["12345", "123456", "123456", "x"]
        );
    }
}
