//! Lines of a content by their numbers.

use super::table::Weighed;

/// Lines of an original source, without their ends.
#[derive(Clone, Debug, PartialEq, Eq)]
#[non_exhaustive]
pub struct Context {
    /// The number of the first of these lines, from 0 on.
    pub first: u32,
    /// The number of the line of the frame, from 0 on.
    pub line: u32,
    /// The lines.
    pub lines: Vec<String>,
}

/// The lines of a text, which is gone over once. They end in a line feed, a carriage return, both, U+2028 or U+2029.
pub(super) struct Lines {
    text: String,
    /// Where each begins, and where its end begins.
    spans: Vec<(usize, usize)>,
}

impl Weighed for Lines {
    fn size(&self) -> u64 {
        (self.text.len() + 16 * self.spans.len()) as u64
    }
}

impl Lines {
    pub fn new(text: &str) -> Lines {
        let (mut spans, mut start) = (Vec::new(), 0);
        for (at, it) in text.char_indices() {
            let is_second = it == '\n' && at > 0 && text.as_bytes()[at - 1] == b'\r';
            if is_second {
                start = at + 1;
            } else if matches!(it, '\n' | '\r' | '\u{2028}' | '\u{2029}') {
                spans.push((start, at));
                start = at + it.len_utf8();
            }
        }
        spans.push((start, text.len()));
        Lines { text: text.to_string(), spans }
    }

    /// A line with up to `count` lines before and behind it; None if there is no such line.
    pub fn around(&self, line: u32, count: usize) -> Option<Context> {
        let at = line as usize;
        self.spans.get(at)?;
        let first = at.saturating_sub(count);
        let spans = &self.spans[first..self.spans.len().min(at.saturating_add(count).saturating_add(1))];
        let lines = spans.iter().map(|it| self.text[it.0..it.1].to_string()).collect();
        Some(Context { first: first as u32, line, lines })
    }
}

#[cfg(test)]
mod tests {
    use super::*;

    #[test]
    fn lines_end_in_five_ways() {
        let lines = Lines::new("a\nb\r\nc\rd\u{2028}é\u{2029}\n");
        let all = lines.around(3, 99).unwrap();
        assert_eq!((all.first, all.line, all.lines.join("|").as_str()), (0, 3, "a|b|c|d|é||"));
        assert_eq!(lines.around(6, 1).unwrap().lines, ["", ""]);
        assert_eq!((lines.around(6, 1).unwrap().first, lines.around(7, 1)), (5, None));
        assert_eq!(lines.around(0, usize::MAX).unwrap().lines.len(), 7);
    }
}
