//! The console in plain Rust, written apart from the proved one: answers the script of its standard input. Called with the
//! word `script` it prints one, as long as an input may be, that makes every call.
#[allow(dead_code)]
mod fit;

use fit::{Absolute, Band, Bands, Entry, Loss, Reading, Squares, fit};
use std::env;
use std::io::{self, Read, Write};

const MAX_INPUT: usize = 65_536;
const MAX_LINE: usize = 64;
const MAX_POINTS: usize = 1_024;
const MAX_COUNT: u32 = 16_777_215;
const MAX_FIELDS: usize = 5;

/// A refusal, but for the number of its line.
struct Refusal {
    layer: u8,
    number: u8,
    column: usize,
}

fn no<T>(layer: u8, number: u8, column: usize) -> Result<T, Refusal> {
    Err(Refusal {
        layer,
        number,
        column,
    })
}

/// A line whose form, letter and number of fields are right: its letter, and each field with its column.
struct Line<'a> {
    letter: u8,
    fields: [(usize, &'a [u8]); MAX_FIELDS],
}

impl<'a> Line<'a> {
    /// `fields_of` answers how many fields the line of a letter has.
    fn read(bytes: &'a [u8], fields_of: impl Fn(u8) -> Option<usize>) -> Result<Self, Refusal> {
        if bytes.len() > MAX_LINE {
            return no(1, 16, 1);
        }
        let mut fields = [(0, &bytes[..0]); MAX_FIELDS];
        let mut found = 0;
        let mut column = 1;
        for field in bytes.split(|b| *b == b' ') {
            if field.is_empty() {
                return no(1, 17, 1);
            }
            if let Some(place) = fields.get_mut(found) {
                *place = (column, field);
            }
            found += 1;
            column += field.len() + 1;
        }
        let (_, &[letter]) = fields[0] else {
            return no(2, 18, 1);
        };
        match fields_of(letter) {
            None => no(2, 18, 1),
            Some(n) if n != found => no(2, 19, 1),
            Some(_) => Ok(Line { letter, fields }),
        }
    }

    fn number(&self, i: usize, low: u32, high: u32) -> Result<u32, Refusal> {
        let (column, digits) = self.fields[i];
        if !digits.iter().all(u8::is_ascii_digit) {
            return no(1, 20, column);
        }
        if digits.len() > 10 || digits.len() > 1 && digits[0] == b'0' {
            return no(1, 21, column);
        }
        let value = digits.iter().fold(0, |n, d| n * 10 + u64::from(*d - b'0'));
        match u32::try_from(value) {
            Ok(n) if low <= n && n <= high => Ok(n),
            _ => no(1, 22, column),
        }
    }

    fn count(&self) -> Result<u32, Refusal> {
        self.number(1, 0, u32::MAX)
    }

    fn level(&self, i: usize) -> Result<u16, Refusal> {
        Ok(self.number(i, 0, 65_535)? as u16)
    }

    fn weight(&self, i: usize) -> Result<u16, Refusal> {
        Ok(self.number(i, 1, 1_000)? as u16)
    }
}

trait OnLine: Sized {
    const FIELDS: usize;

    fn read(line: &Line) -> Result<Self, Refusal>;
}

impl OnLine for Reading {
    const FIELDS: usize = 4;

    fn read(line: &Line) -> Result<Self, Refusal> {
        let level = line.level(2)?;
        let weight = line.weight(3)?;
        Ok(Reading { level, weight })
    }
}

impl OnLine for Band {
    const FIELDS: usize = 5;

    fn read(line: &Line) -> Result<Self, Refusal> {
        let low = line.level(2)?;
        let high = line.level(3)?;
        let weight = line.weight(4)?;
        if low > high {
            return no(2, 23, line.fields[2].0);
        }
        Ok(Band { low, high, weight })
    }
}

struct Bench<L: Loss> {
    loss: L,
    top: u16,
    held: Vec<Entry<L::Point>>,
    rows: Vec<(u32, u16)>,
}

impl<L: Loss> Bench<L>
where
    L::Point: OnLine,
{
    fn obey(&mut self, bytes: &[u8]) -> Result<Option<u16>, Refusal> {
        let line = Line::read(bytes, |letter| match letter {
            b'p' => Some(L::Point::FIELDS),
            b'd' | b'c' => Some(2),
            b'l' => Some(1),
            _ => None,
        })?;
        match line.letter {
            b'p' => self.add(line.count()?, L::Point::read(&line)?)?,
            b'd' => self.drop(line.count()?)?,
            b'l' => self.lay()?,
            _ => return self.convert(line.count()?).map(Some),
        }
        Ok(None)
    }

    fn place(&self, count: u32) -> Result<usize, usize> {
        self.held.binary_search_by_key(&count, |e| e.count)
    }

    fn add(&mut self, count: u32, point: L::Point) -> Result<(), Refusal> {
        if count > MAX_COUNT {
            return no(3, 1, 3);
        }
        let Err(at) = self.place(count) else {
            return no(3, 2, 3);
        };
        if self.held.len() == MAX_POINTS {
            return no(3, 3, 3);
        }
        self.held.insert(at, Entry { count, point });
        Ok(())
    }

    fn drop(&mut self, count: u32) -> Result<(), Refusal> {
        let Ok(at) = self.place(count) else {
            return no(3, 4, 3);
        };
        self.held.remove(at);
        Ok(())
    }

    fn lay(&mut self) -> Result<(), Refusal> {
        if self.held.is_empty() {
            return no(3, 5, 1);
        }
        let mut levels = vec![0; self.held.len()];
        fit(&self.loss, &self.held, self.top, &mut levels);
        let counts = self.held.iter().map(|e| e.count);
        self.rows.clear();
        self.rows.extend(counts.zip(levels));
        Ok(())
    }

    fn convert(&self, count: u32) -> Result<u16, Refusal> {
        match self.rows.first() {
            None => return no(3, 7, 3),
            Some(first) if count < first.0 => return no(3, 8, 3),
            Some(_) => {}
        }
        let at = self.rows.partition_point(|row| row.0 < count);
        let Some(&(k1, l1)) = self.rows.get(at) else {
            return no(3, 9, 3);
        };
        if k1 == count {
            return Ok(l1);
        }
        let (k0, l0) = self.rows[at - 1];
        let rise = u64::from(l1 - l0) * u64::from(count - k0) / u64::from(k1 - k0);
        Ok(l0 + rise as u16)
    }
}

fn answer<T>(
    output: &mut Vec<u8>,
    number: usize,
    result: Result<Option<T>, Refusal>,
) -> io::Result<()>
where
    T: std::fmt::Display,
{
    match result {
        Ok(None) => writeln!(output, "ok"),
        Ok(Some(level)) => writeln!(output, "ok {level}"),
        Err(Refusal {
            layer,
            number: question,
            column,
        }) => writeln!(output, "no {layer} {question} {number} {column}"),
    }
}

fn session<'a, L: Loss>(
    loss: L,
    top: u16,
    lines: impl Iterator<Item = &'a [u8]>,
    output: &mut Vec<u8>,
) -> io::Result<()>
where
    L::Point: OnLine,
{
    let mut bench = Bench {
        loss,
        top,
        held: Vec::new(),
        rows: Vec::new(),
    };
    for (number, line) in (2..).zip(lines) {
        answer(output, number, bench.obey(line))?;
    }
    for (count, level) in bench.rows {
        writeln!(output, "{count} {level}")?;
    }
    Ok(())
}

fn heading(bytes: &[u8]) -> Result<(u8, u16), Refusal> {
    let line = Line::read(bytes, |letter| b"sab".contains(&letter).then_some(2))?;
    Ok((line.letter, line.level(1)?))
}

fn console(input: &[u8]) -> io::Result<Vec<u8>> {
    let mut output = Vec::new();
    if input.len() > MAX_INPUT {
        writeln!(output, "no 2 25 0 0")?;
        return Ok(output);
    }
    let text = input.strip_suffix(b"\n").unwrap_or(input);
    let mut lines = text.split(|b| *b == b'\n');
    let first = heading(lines.next().unwrap_or_default());
    let opened = first.as_ref().ok().copied();
    answer(&mut output, 1, first.map(|_| None::<u16>))?;
    match opened {
        Some((b's', top)) => session(Squares, top, lines, &mut output)?,
        Some((b'a', top)) => session(Absolute, top, lines, &mut output)?,
        Some((_, top)) => session(Bands, top, lines, &mut output)?,
        None => {}
    }
    Ok(output)
}

/// 1,024 points of a rising sweep with noise, in mixed order of counts; then over and over one of them dropped and added
/// again, a lay and 64 conversions.
fn script() -> String {
    let mut state = 1_u64;
    let mut below = |n: u64| {
        state = state
            .wrapping_mul(6_364_136_223_846_793_005)
            .wrapping_add(1_442_695_040_888_963_407);
        (state >> 33) % n
    };
    let mut text = String::from("s 65535\n");
    // 389 has no factor in common with 1,024, so that each count comes once.
    for i in (0..1_024).map(|i| i * 389 % 1_024) {
        let (level, weight) = (i * 60 + below(4_000), 1 + below(1_000));
        text += &format!("p {} {level} {weight}\n", i * 16_000);
    }
    while text.len() < MAX_INPUT {
        let i = below(1_024);
        text += &format!("d {0}\np {0} {1} 1\nl\n", i * 16_000, i * 60);
        for _ in 0..64 {
            text += &format!("c {}\n", below(16_368_001));
        }
    }
    let end = text[..MAX_INPUT].rfind('\n').map_or(0, |at| at + 1);
    text.truncate(end);
    text
}

fn main() -> io::Result<()> {
    if env::args().nth(1).as_deref() == Some("script") {
        return io::stdout().write_all(script().as_bytes());
    }
    let mut input = Vec::new();
    io::stdin()
        .take(MAX_INPUT as u64 + 1)
        .read_to_end(&mut input)?;
    io::stdout().write_all(&console(&input)?)
}
