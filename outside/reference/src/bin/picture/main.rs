//! Turns what `show` printed (standard input) into a PNG picture on standard output, or draws the wedgelet
//! list. Refuses other input with a message on standard error and exit status 1.

use png::Picture;
use reference::block::{mark, size_allowed};
use reference::edges::edge_list;
use shown::Shown;
use std::io::{Read, Write};
use std::process::ExitCode;

mod deflate;
mod png;
mod shown;

const USAGE: &str = "usage:
picture [SCALE [N]]       draws the sheets that `show` printed (standard input) side by side, each sample as a square
                          of SCALE by SCALE (1 to 16), where N (4, 8 or 16) is given with lines between blocks of N by N
picture wedgelets N SCALE draws all wedgelets of N by N samples in list order";

const WHITE: u8 = 255;
const GREY: u8 = 160;
const BLACK: u8 = 0;

/// The white gap between two sheets.
const GAP: usize = 8;

/// How samples are drawn: as squares of `scale` by `scale`, with black lines between blocks of n by n, if any.
struct Style {
    scale: usize,
    n: Option<usize>,
}

impl Style {
    /// The place of sample x (or y), lines before it counted.
    fn place(&self, x: usize) -> usize {
        x * self.scale + self.n.map_or(0, |n| x / n)
    }

    /// The width (or height) of so many samples, lines between them counted.
    fn extent(&self, samples: usize) -> usize {
        self.place(samples - 1) + self.scale
    }

    /// The sheets side by side.
    fn sheets(&self, sheets: &[Shown]) -> Picture {
        let width: usize = sheets.iter().map(|sheet| self.extent(sheet.width) + GAP).sum();
        let height = sheets.iter().map(|sheet| self.extent(sheet.height)).max().unwrap_or(0);
        let mut picture = Picture::new(width - GAP, height, WHITE);
        let mut left = 0;
        for sheet in sheets {
            picture.fill(left, 0, self.extent(sheet.width), self.extent(sheet.height), BLACK);
            for (i, &sample) in sheet.samples.iter().enumerate() {
                let (x, y) = (i % sheet.width, i / sheet.width);
                picture.fill(left + self.place(x), self.place(y), self.scale, self.scale, sample);
            }
            left += self.extent(sheet.width) + GAP;
        }
        picture
    }
}

/// The wedgelets in list order, 10 in a row for n = 4, 25 for n = 8 and 50 for n = 16, marked samples black.
fn wedgelets(n: usize, scale: usize) -> Picture {
    let columns = match n {
        4 => 10,
        8 => 25,
        _ => 50,
    };
    let list = edge_list(n);
    let line = scale.div_ceil(2);
    let cell = n * scale + line;
    let rows = list.len().div_ceil(columns);
    let mut picture = Picture::new(columns * cell + line, rows * cell + line, GREY);
    for (entry, pattern) in list.iter().enumerate() {
        let (left, top) = (line + entry % columns * cell, line + entry / columns * cell);
        for (x, y) in (0..n * n).map(|i| (i % n, i / n)) {
            let colour = if mark(n, pattern, x, y) { BLACK } else { WHITE };
            picture.fill(left + x * scale, top + y * scale, scale, scale, colour);
        }
    }
    picture
}

/// The scale in an argument, 1 to 16.
fn scale(argument: &str) -> Result<usize, String> {
    argument.parse().ok().filter(|scale| (1..=16).contains(scale)).ok_or(USAGE.into())
}

/// The block size in an argument, 4, 8 or 16.
fn size(argument: &str) -> Result<usize, String> {
    argument.parse().ok().filter(|&n| size_allowed(n)).ok_or(USAGE.into())
}

/// The picture that the arguments name.
fn picture(arguments: &[&str]) -> Result<Picture, String> {
    let style = match arguments {
        ["wedgelets", n, scaled] => return Ok(wedgelets(size(n)?, scale(scaled)?)),
        [] => Style { scale: 1, n: None },
        [scaled] => Style { scale: scale(scaled)?, n: None },
        [scaled, n] => Style { scale: scale(scaled)?, n: Some(size(n)?) },
        _ => return Err(USAGE.into()),
    };
    let mut text = String::new();
    std::io::stdin().read_to_string(&mut text).map_err(|error| error.to_string())?;
    Ok(style.sheets(&shown::sheets(&text)?))
}

/// Writes the picture, or says what is wrong.
fn main() -> ExitCode {
    let arguments: Vec<String> = std::env::args().skip(1).collect();
    let arguments: Vec<&str> = arguments.iter().map(String::as_str).collect();
    let drawn = picture(&arguments)
        .and_then(|picture| std::io::stdout().write_all(&picture.png()).map_err(|error| error.to_string()));
    match drawn {
        Ok(()) => ExitCode::SUCCESS,
        Err(message) => {
            eprintln!("picture: {message}");
            ExitCode::FAILURE
        }
    }
}

#[cfg(test)]
mod tests {
    use super::*;

    /// The sample numbers of a sheet as its samples.
    fn counted(width: usize, height: usize) -> Shown {
        Shown { width, height, samples: (0..(width * height) as u8).collect() }
    }

    /// The greys of one row.
    fn row(picture: &Picture, y: usize) -> &[u8] {
        &picture.greys[y * picture.width..][..picture.width]
    }

    #[test]
    fn a_sample_is_a_square_of_its_grey() {
        let plain = Style { scale: 1, n: None }.sheets(&[counted(8, 4)]);
        assert_eq!((plain.width, plain.height, plain.greys), (8, 4, (0..32).collect()));
        let doubled = Style { scale: 2, n: None }.sheets(&[counted(4, 4)]);
        assert_eq!((doubled.width, doubled.height), (8, 8));
        assert_eq!((row(&doubled, 2), row(&doubled, 3)), (&[4, 4, 5, 5, 6, 6, 7, 7][..], row(&doubled, 2)));
    }

    #[test]
    fn lines_stand_between_blocks_only() {
        let lined = Style { scale: 1, n: Some(4) }.sheets(&[counted(8, 8)]);
        assert_eq!((lined.width, lined.height), (9, 9));
        assert_eq!(row(&lined, 3), [24, 25, 26, 27, BLACK, 28, 29, 30, 31]);
        assert_eq!(row(&lined, 4), [BLACK; 9]);
        assert_eq!(row(&lined, 5), [32, 33, 34, 35, BLACK, 36, 37, 38, 39]);
    }

    #[test]
    fn sheets_stand_side_by_side_from_the_top() {
        let both = Style { scale: 1, n: None }.sheets(&[counted(4, 4), counted(4, 8)]);
        assert_eq!((both.width, both.height), (4 + GAP + 4, 8));
        assert_eq!(row(&both, 1), [&[4, 5, 6, 7][..], &[WHITE; GAP], &[4, 5, 6, 7]].concat());
        assert_eq!(row(&both, 7), [&[WHITE; 4 + GAP][..], &[28, 29, 30, 31]].concat());
    }

    #[test]
    fn wedgelets_stand_in_list_order() {
        let drawn = wedgelets(4, 1);
        assert_eq!((drawn.width, drawn.height), (51, 41));
        assert_eq!(row(&drawn, 0), [GREY; 51]);
        let (w, b) = (WHITE, BLACK);
        assert_eq!(row(&drawn, 1)[..11], [GREY, w, w, w, w, GREY, w, w, w, w, GREY]);
        assert_eq!(row(&drawn, 2)[..11], [GREY, b, b, b, b, GREY, b, b, b, w, GREY]);
        assert_eq!((wedgelets(8, 1).width, wedgelets(8, 1).height), (226, 181));
        assert_eq!((wedgelets(16, 1).width, wedgelets(16, 1).height), (851, 851));
    }

    #[test]
    fn other_arguments_are_refused() {
        for arguments in [&["0"][..], &["17"], &["x"], &["2", "5"], &["wedgelets", "4"], &["2", "4", "4"]] {
            assert!(picture(arguments).is_err_and(|message| message == USAGE), "{arguments:?}");
        }
    }
}
