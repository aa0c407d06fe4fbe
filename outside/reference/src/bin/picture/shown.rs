//! What `show` printed, read again.

/// A sheet's samples, row by row.
#[derive(Debug, PartialEq, Eq)]
pub struct Shown {
    pub width: usize,
    pub height: usize,
    pub samples: Vec<u8>,
}

/// The lines of the input, counted from 1.
pub struct Lines<'a> {
    rest: &'a str,
    line: usize,
}

impl<'a> Lines<'a> {
    /// Takes the next line, which must end in byte 10.
    fn next(&mut self, expected: &str) -> Result<&'a str, String> {
        self.line += 1;
        let (line, rest) = self.rest.split_once('\n').ok_or_else(|| self.other(expected))?;
        self.rest = rest;
        Ok(line)
    }

    /// Takes a line that must be this text.
    fn expect(&mut self, text: &str) -> Result<(), String> {
        match self.next(text)? {
            line if line == text => Ok(()),
            _ => Err(self.other(text)),
        }
    }

    /// Takes a line of `count` numbers with one space between them, each as a program prints it and at most
    /// `most`.
    fn numbers(&mut self, count: usize, most: usize) -> Result<Vec<usize>, String> {
        let expected = format!("{count} numbers up to {most}");
        let fields: Vec<&str> = self.next(&expected)?.split(' ').collect();
        let number = |field: &&str| field.parse().ok().filter(|n: &usize| n.to_string() == *field);
        let numbers: Option<Vec<usize>> = fields.iter().map(number).collect();
        let sound = |numbers: &Vec<usize>| numbers.len() == count && numbers.iter().all(|&n| n <= most);
        numbers.filter(sound).ok_or_else(|| self.other(&expected))
    }

    /// The message about a line that is something else than expected.
    fn other(&self, expected: &str) -> String {
        format!("line {}: not what `show` prints of a sheet; expected: {expected}", self.line)
    }

    /// Takes one sheet.
    fn sheet(&mut self) -> Result<Shown, String> {
        if let Some(refusal) = self.rest.strip_prefix("refusal line\n") {
            let which = refusal.lines().next().unwrap_or_default();
            return Err(format!("line {}: `show` printed a refusal: {which}", self.line + 1));
        }
        self.expect("width height")?;
        let sizes = self.numbers(2, 128)?;
        if sizes.iter().any(|&side| side < 4 || !side.is_multiple_of(4)) {
            return Err(self.other("a width and a height that a sheet can have"));
        }
        self.expect("depth")?;
        let mut samples = vec![];
        for _ in 0..sizes[1] {
            samples.extend(self.numbers(sizes[0], 255)?.iter().map(|&sample| sample as u8));
        }
        Ok(Shown { width: sizes[0], height: sizes[1], samples })
    }
}

/// The sheets of the input, one or more; else a message that names the first line of another form.
pub fn sheets(text: &str) -> Result<Vec<Shown>, String> {
    let mut lines = Lines { rest: text, line: 0 };
    let mut all = vec![lines.sheet()?];
    while !lines.rest.is_empty() {
        all.push(lines.sheet()?);
    }
    Ok(all)
}

#[cfg(test)]
mod tests {
    use super::*;
    use reference::file::shown;

    const ROWS: &str = "1 2 3 4\n0 0 0 0\n9 9 9 9\n255 0 0 1\n";

    /// The samples of `ROWS`.
    const SAMPLES: [u8; 16] = [1, 2, 3, 4, 0, 0, 0, 0, 9, 9, 9, 9, 255, 0, 0, 1];

    #[test]
    fn what_show_prints_is_read_again() {
        let text = shown(4, 4, &SAMPLES);
        assert_eq!(text, format!("width height\n4 4\ndepth\n{ROWS}"));
        let sheet = || Shown { width: 4, height: 4, samples: SAMPLES.to_vec() };
        assert_eq!(sheets(&text), Ok(vec![sheet()]));
        assert_eq!(sheets(&text.repeat(2)), Ok(vec![sheet(), sheet()]));
    }

    #[test]
    fn other_text_is_refused_at_its_line() {
        let sound = format!("width height\n4 4\ndepth\n{ROWS}");
        let cases = [
            ("width", "length", 1),
            ("4 4\n", "4 4 4\n", 2),
            ("4 4\n", "4 5\n", 2),
            ("4 4\n", "0 4\n", 2),
            ("4 4\n", "4 132\n", 2),
            ("depth", "Depth", 3),
            ("9 9 9 9", "9 9 9", 6),
            ("9 9 9 9", "9 9  9 9", 6),
            ("9 9 9 9", "9 9 +9 9", 6),
            ("9 9 9 9", "9 9 09 9", 6),
            ("255", "256", 7),
            ("0 1\n", "0 1", 7),
            ("255 0 0 1\n", "", 7),
            ("0 1\n", "0 1\n\n", 8),
        ];
        for (old, new, line) in cases {
            assert_eq!(sound.matches(old).count(), 1, "{old}");
            let message = sheets(&sound.replace(old, new)).unwrap_err();
            assert!(message.starts_with(&format!("line {line}: ")), "{new}: {message}");
        }
    }

    #[test]
    fn no_input_and_a_refusal_are_refused() {
        assert!(sheets("").unwrap_err().starts_with("line 1: not"));
        assert_eq!(sheets("refusal line\n9 3\n").unwrap_err(), "line 1: `show` printed a refusal: 9 3");
    }
}
