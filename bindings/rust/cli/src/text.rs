//! Traces and lists as text.
//!
//! A trace has a line for each sample with its tick and its value, between them a semicolon, a comma,
//! a tab or spaces. What follows a `#` is skipped, as are blank lines; a first line of words is a
//! heading. One line `# tolerance p/q`, or `# tolerance U D` with two such ratios, before the samples, as
//! `show` prints it, is taken notice of. A carriage return at a line's end and a byte order mark are
//! tolerated. Several traces may be in one file, with the number of its channel in a third column for each
//! sample.

use crate::failure::{line_of, Failure};
use crate::name::plain;
use crate::number::{Decimal, Product};
use crate::source::Source;
use crate::{records, tolerance};
use kovrelna::{Parts, Refusal, Tolerance};
use std::collections::BTreeMap;
use std::ffi::{OsStr, OsString};
use std::fmt::Display;
use std::io::{BufRead, BufReader, Read};

/// One sample more than a trace may have: with so many the library refuses it.
const ENOUGH: usize = 4_097;
/// The longest line, in bytes.
const LINE: usize = 65_535;

/// A trace as it was read.
#[derive(Debug, Default)]
pub struct Text {
    pub name: OsString,
    pub ticks: Vec<u32>,
    pub values: Vec<i16>,
    /// What stands after `# tolerance`, and in which line.
    tolerance: Option<(String, usize)>,
    /// The line of each sample, counted from 1.
    lines: Vec<usize>,
}

impl Text {
    /// Reads a trace. It may break any rule of a trace, which the library is to say; of a trace that
    /// is too long only the beginning is read.
    pub fn read(source: Source) -> Result<Text, Failure> {
        let mut growing = Growing::open(source)?;
        while growing.text.ticks.len() < ENOUGH && growing.grow()? {}
        Ok(growing.text)
    }

    /// Reads the channels of a crate, which are numbered in a third column and come in the order of
    /// their numbers; without that column, the trace of channel 0. Each may break any rule of a trace.
    /// Of one that is too long only the beginning is kept; where there are more than `most`, one more is
    /// returned.
    pub fn channels(source: Source, most: usize) -> Result<Vec<(u32, Text)>, Failure> {
        let name = source.name.clone();
        let mut channels: BTreeMap<u32, Text> = BTreeMap::new();
        let mut rows = Rows::open(source)?;
        let mut numbered = None;
        loop {
            let row = rows.next(|fields| match *numbered.get_or_insert(fields.len() == 3) {
                true => sample_of_channel(fields),
                false => Ok((0, sample(fields)?)),
            })?;
            let Some(((channel, sample), line)) = row else {
                break;
            };
            let text = channels
                .entry(channel)
                .or_insert_with(|| Text::named(&name));
            let is_enough = text.ticks.len() == ENOUGH;
            if !is_enough {
                text.push(sample, line);
            }
            if is_enough && numbered == Some(false) || channels.len() > most {
                break;
            }
        }
        if channels.is_empty() {
            channels.insert(0, Text::named(&name));
        }
        let noted = |(channel, mut text): (u32, Text)| {
            text.tolerance = rows.tolerance.clone();
            (channel, text)
        };
        Ok(channels.into_iter().map(noted).collect())
    }

    fn named(name: &OsStr) -> Text {
        Text {
            name: name.to_os_string(),
            ..Text::default()
        }
    }

    fn push(&mut self, (tick, value): (u32, i16), line: usize) {
        self.ticks.push(tick);
        self.values.push(value);
        self.lines.push(line);
    }

    /// The tolerance of the trace's own line, as it is held.
    pub fn tolerance(&self) -> Result<Option<Parts>, Failure> {
        let Some((written, _)) = &self.tolerance else {
            return Ok(None);
        };
        match tolerance::parse_line(written) {
            Ok(held) => Ok(Some(held)),
            Err(cause) => Err(self.at_tolerance(&format!("tolerance: {cause}"))),
        }
    }

    /// The trace, unless its samples are kept at a tolerance already: what is asked is about all samples.
    pub fn original(self) -> Result<Text, Failure> {
        self.must_be_original()?;
        Ok(self)
    }

    /// Fails if the samples are kept at a tolerance already.
    pub fn must_be_original(&self) -> Result<(), Failure> {
        match &self.tolerance {
            Some((written, _)) => {
                let cause = "the answer would not be about the original trace";
                let cause = format!("samples are reduced already at {written}: {cause}");
                Err(self.at_tolerance(&cause))
            }
            None => Ok(()),
        }
    }

    /// At the line of the tolerance.
    pub fn at_tolerance(&self, cause: &str) -> Failure {
        match self.tolerance {
            Some((_, line)) => Failure::at_line(&self.name, line, cause),
            None => Failure::at(&self.name, cause),
        }
    }

    /// The refusal at the line that it is about.
    pub fn refused(&self, refusal: Refusal) -> Failure {
        match refusal {
            Refusal::Length => self.too_long(ENOUGH - 1),
            Refusal::Tick(sample) => self.at(sample, "the tick is not above the one before"),
            Refusal::Span(sample) => self.at(
                sample,
                "the tick is over 1,048,575 above that of the first sample",
            ),
            _ => Failure::at(&self.name, refusal),
        }
    }

    /// No samples, or more than so many.
    pub fn too_long(&self, most: usize) -> Failure {
        match self.ticks.len() {
            0 => Failure::at(&self.name, "no samples"),
            _ => self.at(
                most,
                &format!("too many samples: at most {most} are allowed"),
            ),
        }
    }

    /// Every sample, as a kept list.
    pub fn every_sample(&self) -> Vec<u16> {
        (0..self.ticks.len()).map(|sample| sample as u16).collect()
    }

    /// Fails if this is no trace.
    pub fn must_be_a_trace(&self) -> Result<(), Failure> {
        // All samples are within any tolerance of themselves.
        let (all, zero) = (self.every_sample(), Tolerance::Counts(0.0));
        match kovrelna::judge(&self.ticks, &self.values, &all, zero) {
            Ok(_) => Ok(()),
            Err(refusal) => Err(self.refused(refusal)),
        }
    }

    /// The line of this sample, in a message.
    pub fn line_of(&self, sample: usize) -> OsString {
        match self.lines.get(sample) {
            Some(&line) => line_of(&self.name, line),
            None => self.name.clone(),
        }
    }

    /// At the line of this sample.
    fn at(&self, sample: usize, cause: &str) -> Failure {
        Failure::at(self.line_of(sample), cause)
    }
}

/// A trace that is read sample by sample.
pub struct Growing {
    /// The samples so far.
    pub text: Text,
    rows: Rows,
}

impl Growing {
    pub fn open(source: Source) -> Result<Growing, Failure> {
        Ok(Growing {
            text: Text::named(&source.name),
            rows: Rows::open(source)?,
        })
    }

    /// Reads the next sample, as soon as its line is there. Whether there is one.
    pub fn grow(&mut self) -> Result<bool, Failure> {
        let row = self.rows.next(sample)?;
        self.text.tolerance.clone_from(&self.rows.tolerance);
        if let Some((sample, line)) = row {
            self.text.push(sample, line);
        }
        Ok(row.is_some())
    }
}

/// A list of samples as it was read.
#[derive(Debug)]
pub struct List {
    name: OsString,
    pub entries: Vec<u16>,
    /// The line of each entry, counted from 1; nothing if the list is no file.
    lines: Vec<usize>,
}

impl List {
    /// The list in this option.
    pub fn of(option: &str, line: &str) -> Result<List, String> {
        let (name, lines) = (format!("--{option}"), Vec::new());
        let entries = entries(line).map_err(|cause| format!("{name}: {cause}"))?;
        Ok(List {
            name: name.into(),
            entries,
            lines,
        })
    }

    /// Reads a list of samples, separated by commas, semicolons or white space.
    pub fn read(source: Source) -> Result<List, Failure> {
        let mut list = List {
            name: source.name.clone(),
            entries: Vec::new(),
            lines: Vec::new(),
        };
        let mut lines = Lines::new(source);
        while let Some(line) = lines.next()? {
            let (data, _) = line.split_once('#').unwrap_or((line, ""));
            let more = entries(data);
            let more = more.map_err(|cause| lines.wrong(&cause))?;
            list.entries.extend(more);
            if list.entries.len() > usize::from(u16::MAX) + 1 {
                return Err(lines.wrong("the list is too long"));
            }
            list.lines.resize(list.entries.len(), lines.number);
        }
        Ok(list)
    }

    /// The refusal of the list at the line of this entry.
    pub fn refused(&self, entry: usize) -> Failure {
        if entry == self.entries.len() {
            let cause = "no kept list: it does not end with the last sample";
            return Failure::at(&self.name, cause);
        }
        let cause = format!("no kept list: entry {entry} is bad");
        match self.lines.get(entry) {
            Some(&line) => Failure::at_line(&self.name, line, cause),
            None => Failure::at(&self.name, cause),
        }
    }
}

/// The entries of a list in one line.
fn entries(line: &str) -> Result<Vec<u16>, String> {
    line.split([',', ';', ' ', '\t'])
        .filter(|entry| !entry.is_empty())
        .map(|entry| whole("sample number", entry, 0, u16::MAX))
        .collect()
}

/// The lines of a source that have a sample.
struct Rows {
    lines: Lines,
    is_headed: bool,
    is_begun: bool,
    /// What stands after `# tolerance`, and in which line, once it was read.
    tolerance: Option<(String, usize)>,
}

impl Rows {
    fn open(source: Source) -> Result<Rows, Failure> {
        let (is_record, source) = records::begins(source)?;
        if is_record {
            let cause = "a record, where a trace is wanted";
            return Err(Failure::at(source.name, cause));
        }
        Ok(Rows {
            lines: Lines::new(source),
            is_headed: false,
            is_begun: false,
            tolerance: None,
        })
    }

    /// What `parse` makes of the fields of the next line, and the line's number, as soon as the line is
    /// there.
    fn next<T>(
        &mut self,
        parse: impl FnOnce(&[&str]) -> Result<T, String>,
    ) -> Result<Option<(T, usize)>, Failure> {
        loop {
            let number = self.lines.number + 1;
            let Some(line) = self.lines.next()? else {
                return Ok(None);
            };
            let (data, comment) = line.split_once('#').unwrap_or((line, ""));
            if data.trim().is_empty() {
                if let Some(written) = tolerance_in(comment) {
                    if self.tolerance.is_some() || self.is_begun {
                        let cause =
                            "a second record begins here, or its tolerance comes after its samples";
                        return Err(self.lines.wrong(cause));
                    }
                    self.tolerance = Some((written, number));
                }
                continue;
            }
            let fields = fields(data);
            if !self.is_headed && !self.is_begun && fields.iter().all(|field| is_word(field)) {
                self.is_headed = true;
                continue;
            }
            self.is_begun = true;
            return match parse(&fields) {
                Ok(parsed) => Ok(Some((parsed, number))),
                Err(cause) => Err(self.lines.wrong(&cause)),
            };
        }
    }
}

/// The lines of a source as text; what is not UTF-8 in them is replaced.
struct Lines {
    name: OsString,
    reader: BufReader<Source>,
    line: String,
    /// The number of the line that was read last, counted from 1.
    number: usize,
    is_ended: bool,
}

impl Lines {
    fn new(source: Source) -> Lines {
        Lines {
            name: source.name.clone(),
            reader: BufReader::new(source),
            line: String::new(),
            number: 0,
            is_ended: false,
        }
    }

    /// The next line without its end.
    fn next(&mut self) -> Result<Option<&str>, Failure> {
        if self.is_ended {
            return Ok(None);
        }
        let mut bytes = Vec::new();
        let mut limited = self.reader.by_ref().take(LINE as u64 + 1);
        if let Err(error) = limited.read_until(b'\n', &mut bytes) {
            return Err(Failure::io(&self.name, &error));
        }
        if bytes.is_empty() {
            return Ok(None);
        }
        self.number += 1;
        // A terminal whose input has ended would be read from again.
        self.is_ended = bytes.last() != Some(&b'\n');
        if bytes.len() > LINE && self.is_ended {
            return Err(self.wrong("the line is over 65,535 bytes long"));
        }
        self.line = String::from_utf8_lossy(&bytes).into_owned();
        let line = self.line.trim_end_matches(['\n', '\r']);
        Ok(Some(match self.number {
            1 => line.trim_start_matches('\u{feff}'),
            _ => line,
        }))
    }

    /// At the line that was read last.
    fn wrong(&self, cause: &str) -> Failure {
        Failure::at_line(&self.name, self.number, cause)
    }
}

/// What stands after `tolerance` in this comment, if it is one ratio, or two for two parts; these have a
/// space between.
fn tolerance_in(comment: &str) -> Option<String> {
    let written = comment.trim().strip_prefix("tolerance ")?;
    let ratios: Vec<&str> = written.split_whitespace().collect();
    let is_tolerance = matches!(ratios.len(), 1 | 2) && ratios.iter().all(|ratio| is_ratio(ratio));
    is_tolerance.then(|| ratios.join(" "))
}

/// Whether this is p/q, both whole.
fn is_ratio(text: &str) -> bool {
    let whole = |part: &str| !part.is_empty() && part.bytes().all(|byte| byte.is_ascii_digit());
    matches!(text.split_once('/'), Some((p, q)) if whole(p) && whole(q))
}

/// The fields of a line: between semicolons, or commas, or tabs, or else white space; without space
/// and quotation marks around them.
fn fields(line: &str) -> Vec<&str> {
    match [';', ',', '\t']
        .into_iter()
        .find(|&c| line.trim().contains(c))
    {
        Some(separator) => line.trim().split(separator).map(bare).collect(),
        None => line.split_whitespace().map(bare).collect(),
    }
}

/// The field without space and quotation marks around it.
fn bare(field: &str) -> &str {
    let field = field.trim();
    let unopened = field.strip_prefix('"');
    let unquoted = unopened.and_then(|field| field.strip_suffix('"'));
    unquoted.map_or(field, str::trim)
}

/// What stands for a number that is missing, or is none.
const MISSING: [&str; 7] = ["n/a", "na", "nan", "null", "none", "inf", "infinity"];

/// Whether the field may be in a heading.
fn is_word(field: &str) -> bool {
    let field = field.to_lowercase();
    field.starts_with(char::is_alphabetic) && !MISSING.contains(&field.as_str())
}

/// The samples of a trace as text.
pub fn lines(ticks: &[u32], values: &[i16]) -> String {
    let samples = ticks.iter().zip(values);
    samples
        .map(|(tick, value)| format!("{tick},{value}\n"))
        .collect()
}

/// The tick and the value in the fields of a line.
fn sample(fields: &[&str]) -> Result<(u32, i16), String> {
    match fields {
        [tick, value] => Ok((
            whole("tick", tick, 0, u32::MAX)?,
            whole("value", value, i16::MIN, i16::MAX)?,
        )),
        _ => Err(wanted("a tick and a value", fields)),
    }
}

/// The channel, and the tick and the value, in the fields of a line.
fn sample_of_channel(fields: &[&str]) -> Result<(u32, (u32, i16)), String> {
    match fields {
        [tick, value, channel] => {
            let sample = sample(&[tick, value])?;
            Ok((whole("channel", channel, 0, u32::MAX)?, sample))
        }
        _ => Err(wanted("a tick, a value and a channel", fields)),
    }
}

/// These columns are wanted in place of the fields.
fn wanted(columns: &str, fields: &[&str]) -> String {
    match fields.len() {
        1 => format!("{columns} are wanted, and there is 1 column"),
        count => format!("{columns} are wanted, and there are {count} columns"),
    }
}

/// The whole number in this field or option. What its type does not hold is said to be not from `low`
/// to `high`.
pub fn whole<T: TryFrom<i128> + Display>(
    what: &str,
    field: &str,
    low: T,
    high: T,
) -> Result<T, String> {
    let shown = plain(&field.chars().take(40).collect::<String>());
    let number =
        Decimal::parse(field).map_err(|cause| format!("the {what} `{shown}` is {cause}"))?;
    let beyond = || format!("the {what} `{shown}` is not from {low} to {high}");
    match number.times(1) {
        Product::Whole(n) => n.try_into().map_err(|_| beyond()),
        Product::Huge => Err(beyond()),
        Product::Fraction => Err(format!("the {what} `{shown}` is no whole number")),
    }
}

#[cfg(test)]
mod tests {
    use super::*;
    use std::collections::VecDeque;
    use std::io;

    fn read(bytes: &[u8]) -> Result<Text, String> {
        match Text::read(Source::of("in", bytes)) {
            Ok(text) => Ok(text),
            Err(Failure::Told(message)) => Err(message.into_string().unwrap()),
            Err(failure) => panic!("{failure:?}"),
        }
    }

    #[test]
    fn separators() {
        for text in [
            "0,1\n3,-2\n",
            "0;1\n3;-2",
            "0\t1\r\n3\t-2\r\n",
            "  0   1 \n 3 -2",
            "tick,value\n0,1\n\n3,-2\n",
            "\u{feff}\"tick\"; \"value\"\n\"0\"; \"1\"\n3;-2 # last\n",
            "# a comment, 5\n\n  # another\nt v\n0 1\n3, -2\n",
            "0.000e+00 1.0\n3.0 -2.000e+00\n",
        ] {
            let read = read(text.as_bytes()).unwrap();
            assert_eq!(
                (read.ticks, read.values),
                (vec![0, 3], vec![1, -2]),
                "{text}"
            );
            assert_eq!(read.tolerance, None);
        }
    }

    #[test]
    fn headings() {
        for heading in ["tick,value", "Time (ns);ADC/counts", "temps\tunité", "t"] {
            let text = format!("{heading}\n7,8\n");
            assert_eq!(read(text.as_bytes()).unwrap().ticks, [7], "{heading}");
        }
        for no_heading in [
            "N/A,N/A",
            "na,value",
            "NaN NaN",
            "null;null",
            "tick,None",
            "-inf,v",
            "?,?",
            "--,--",
            "\"\",v",
        ] {
            let text = format!("{no_heading}\n7,8\n");
            let told = read(text.as_bytes()).unwrap_err();
            assert!(told.starts_with("in:1: the tick `"), "{told}");
        }
    }

    #[test]
    fn tolerance_lines() {
        let tolerance = |text: &str| read(text.as_bytes()).unwrap().tolerance;
        let at = |line| Some(("2/3".to_string(), line));
        assert_eq!(tolerance("# tolerance 2/3\n0,1\n"), at(1));
        assert_eq!(tolerance("# c\n#tolerance  2/3 \r\n"), at(2));
        assert_eq!(tolerance("# tolerances 2/3\n0,1\n"), None);
        assert_eq!(tolerance("0,1 # tolerance 2/3\n"), None);
        assert_eq!(tolerance("# tolerance of the digitiser: 2/3\n0,1\n"), None);
        assert_eq!(tolerance("# tolerance 2\n0,1\n# tolerance met\n"), None);
        let parts = |line| Some(("2/3 1/1".to_string(), line));
        assert_eq!(tolerance("# tolerance 2/3 1/1\n0,1\n"), parts(1));
        assert_eq!(tolerance("\n#tolerance   2/3\t 1/1 \r\n"), parts(2));
        for comment in [
            "2/3 1",
            "2/3 -1/1",
            "2/3, 1/1",
            "2/3 1/1 1/1",
            "2/3 or 1/1",
            "2/3 /",
        ] {
            assert_eq!(tolerance(&format!("# tolerance {comment}\n0,1\n")), None);
        }
        for (text, line) in [
            ("0,1\n# tolerance 2/3\n", 2),
            ("# tolerance 2/3\n# tolerance 2/3\n0,1\n", 2),
            ("# tolerance 2/3\n0,1\n# b\n# tolerance 1/3\n2,1\n", 4),
            ("# tolerance 2/3\n# tolerance 2/3 1/1\n0,1\n", 2),
            ("0,1\n# tolerance 2/3 1/1\n", 2),
        ] {
            let told = read(text.as_bytes()).unwrap_err();
            assert!(told.starts_with(&format!("in:{line}: a second")), "{told}");
        }
    }

    /// Gives these parts one by one, an empty one as an end, and then fails.
    struct Parts(VecDeque<&'static [u8]>);

    impl Read for Parts {
        fn read(&mut self, buffer: &mut [u8]) -> io::Result<usize> {
            let Some(part) = self.0.front_mut() else {
                return Err(io::Error::other("nothing more is there"));
            };
            let count = part.read(buffer)?;
            if part.is_empty() {
                self.0.pop_front();
            }
            Ok(count)
        }
    }

    /// A sample is read as soon as its line is there.
    #[test]
    fn growing() {
        let growing = |parts: &[&'static str]| {
            let parts = parts.iter().map(|part| part.as_bytes()).collect();
            Growing::open(Source::from("in", Parts(parts))).unwrap()
        };
        for parts in [
            &["0 5\n"][..],
            &["0", " 5\r\n"],
            &["# c\n", "\n", "Tick\n", "0,5\n"],
            &["T\tV\n0\t5\n"],
        ] {
            let mut growing = growing(parts);
            assert_eq!(growing.grow(), Ok(true), "{parts:?}");
            assert_eq!(
                (&growing.text.ticks[..], &growing.text.values[..]),
                (&[0][..], &[5][..])
            );
            let more = Failure::at("in", "nothing more is there");
            assert_eq!(growing.grow(), Err(more), "{parts:?}");
        }
        // After an end, of a line too, nothing is read.
        for parts in [&["0 5\n", ""], &["0 5", ""]] {
            let mut growing = growing(parts);
            assert_eq!([growing.grow(), growing.grow()], [Ok(true), Ok(false)]);
            assert_eq!(growing.text.ticks, [0]);
        }
    }

    /// Channels by their numbers; no more is kept of them than the library needs to refuse them.
    #[test]
    fn channels() {
        let channels = |text: &str, most| {
            let channels = Text::channels(Source::of("in", text.as_bytes()), most).unwrap();
            let of = |(channel, text): (u32, Text)| (channel, text.ticks, text.lines);
            channels.into_iter().map(of).collect::<Vec<_>>()
        };
        let two = "t,v,c\n5,0,9\n7,0,2\n\n6,0,9\n";
        let expected = [(2, vec![7], vec![3]), (9, vec![5, 6], vec![2, 5])];
        assert_eq!(channels(two, 2), expected);
        assert_eq!(channels("5,0\n6,0\n", 2), [(0, vec![5, 6], vec![1, 2])]);
        assert_eq!(channels("# c\n", 2), [(0, vec![], vec![])]);
        let many: String = (0..9).map(|channel| format!("0,0,{channel}\n")).collect();
        assert_eq!(channels(&many, 2).len(), 3);
        for line in ["0,0\n", "0,0,7\n"] {
            let long = channels(&line.repeat(5_000), 2);
            assert_eq!((long.len(), long[0].1.len()), (1, 4_097), "{line}");
        }
    }

    #[test]
    fn a_record_is_no_text() {
        let record = b"T\0\0\0\0\x02\0\0\x01A\0\0\0\0\0\0E\0\x01";
        assert_eq!(
            read(record).unwrap_err(),
            "in: a record, where a trace is wanted"
        );
    }

    #[test]
    fn places() {
        for (bytes, told) in [
            (
                &b"0,1\n1;2;3\n"[..],
                "in:2: a tick and a value are wanted, and there are 3 columns",
            ),
            (
                b"5\n",
                "in:1: a tick and a value are wanted, and there is 1 column",
            ),
            (b"0,1\n1,\n", "in:2: the value `` is not a number"),
            (b"0,1\nt,v\n", "in:2: the tick `t` is not a number"),
            (b"nan,nan\n", "in:1: the tick `nan` is not a number"),
            (b"t,v\nt,v\n", "in:2: the tick `t` is not a number"),
            (
                b"0,1\r\n\r\n# c\r\n1,x\r\n",
                "in:4: the value `x` is not a number",
            ),
            (b"0,1.5\n", "in:1: the value `1.5` is no whole number"),
            (
                b"0,32768\n",
                "in:1: the value `32768` is not from -32768 to 32767",
            ),
            (b"-1,0\n", "in:1: the tick `-1` is not from 0 to 4294967295"),
            (
                b"4294967296,0\n",
                "in:1: the tick `4294967296` is not from 0 to 4294967295",
            ),
            (
                b"1e99,0\n",
                "in:1: the tick `1e99` is not from 0 to 4294967295",
            ),
            (
                b"0,1\n\xff\xfe,2\n",
                "in:2: the tick `\u{fffd}\u{fffd}` is not a number",
            ),
            (
                b"0,1\n\x00,2\n",
                "in:2: the tick `\u{fffd}` is not a number",
            ),
        ] {
            assert_eq!(read(bytes).unwrap_err(), told);
        }
        let long = [&b"0,1\n"[..], &[b'#'; 70_000]].concat();
        assert_eq!(
            read(&long).unwrap_err(),
            "in:2: the line is over 65,535 bytes long"
        );
    }

    #[test]
    fn refusals_at_lines() {
        let text = read(b"# c\n0,0\n\n5,0\n").unwrap();
        let told = |refusal| match text.refused(refusal) {
            Failure::Told(message) => message.into_string().unwrap(),
            failure => panic!("{failure:?}"),
        };
        assert_eq!(
            told(Refusal::Tick(1)),
            "in:4: the tick is not above the one before"
        );
        assert_eq!(told(Refusal::Link(0)), "in: link 0 is invalid");
    }

    #[test]
    fn lists() {
        assert_eq!(entries("0,3, 4"), Ok(vec![0, 3, 4]));
        assert_eq!(entries(" 0 3\t4;"), Ok(vec![0, 3, 4]));
        assert_eq!(entries(""), Ok(vec![]));
        assert!(entries("0,a").unwrap_err().contains("`a` is not a number"));
        assert!(entries("70000")
            .unwrap_err()
            .contains("is not from 0 to 65535"));
        let list = List::read(Source::of("in", b"0 # first\n3\n\n4")).unwrap();
        assert_eq!(list.entries, [0, 3, 4]);
        let told = |words: &str| Failure::Told(format!("{words} is bad").into());
        assert_eq!(list.refused(2), told("in:4: no kept list: entry 2"));
        let short = "in: no kept list: it does not end with the last sample";
        assert_eq!(list.refused(3), Failure::Told(short.into()));
        let given = List::of("list", "0,3").unwrap();
        assert_eq!(given.refused(1), told("--list: no kept list: entry 1"));
        let read = |entries| List::read(Source::of("in", "0\n".repeat(entries).as_bytes()));
        assert_eq!(read(65_536).unwrap().entries.len(), 65_536);
        let long = Failure::at_line("in", 65_537, "the list is too long");
        assert_eq!(read(65_537).unwrap_err(), long);
    }
}
