//! The command `pedestals`: which channels of a crate have moved or are noisy since another run. The
//! library says which; the means and the widths here are for print.

use crate::channels::Traces;
use crate::failure::{Failure, Status};
use crate::levels::{self, Levels};
use crate::line::{ratio, Line, ABOVE, BELOW, CSV, DRAW, NOISE, OUTPUT, TOLERANCE};
use crate::name::{joined, shown};
use crate::runs::{Channel, Run};
use crate::table::{self, quoted};
use crate::text::whole;
use crate::tolerance::both;
use crate::{budget, help, output, rounded};
use kovrelna::{Ratio, Refusal, Tolerance};
use std::ffi::{OsStr, OsString};
use std::fmt::{self, Display, Formatter};
use std::path::Path;

pub fn pedestals(arguments: &[OsString]) -> Result<Status, Failure> {
    let options = [TOLERANCE, ABOVE, BELOW, NOISE, CSV, DRAW, OUTPUT];
    let line = Line::parse("pedestals", &options, arguments)?;
    if line.arguments.help {
        return output::print(help::PEDESTALS);
    }
    let given = |option| line.value(option).is_some();
    if given(ABOVE) || given(BELOW) {
        let cause = "pedestals are compared at one tolerance: --above and --below do not apply";
        return Err(line.wrong(cause));
    }
    let limits = Limits {
        held: line.needed_limits()?.held.above,
        noise: noise(&line)?,
    };
    let (is_csv, is_drawn) = (line.value(CSV).is_some(), line.value(DRAW).is_some());
    if is_csv && is_drawn {
        return Err(line.wrong("one of --csv and --draw is wanted"));
    }
    if line.value(OUTPUT).is_some() && !is_drawn {
        return Err(line.wrong("--output needs --draw"));
    }
    let [today, yesterday] = line.inputs()?[..] else {
        return Err(line.wrong("today's run and yesterday's are wanted"));
    };
    let (today, yesterday) = (Run::read(today)?, Run::read(yesterday)?);
    let rows = rows(&today, &yesterday, &limits)?;
    let summary = Summary::of(&rows);
    if is_drawn {
        let svg = picture(&rows, &limits, &summary, [&today.name, &yesterday.name]);
        output::write(line.value(OUTPUT), svg.as_bytes(), true)?;
    } else if is_csv {
        output::print(csv(&rows, &limits, &summary))?;
    } else {
        output::print(lines(&rows, &limits, &summary))?;
    }
    Ok(match summary.listed {
        0 => Status::Done,
        _ => Status::No,
    })
}

/// What a channel may do and not be listed.
struct Limits {
    /// The ratio as which the tolerance is held.
    held: Ratio,
    noise: u64,
}

/// The noise factor.
fn noise(line: &Line) -> Result<u64, Failure> {
    let Some(written) = line.text(NOISE)? else {
        return Err(line.wrong("--noise is missing"));
    };
    let wrong = |cause: String| line.wrong(format!("--noise: {cause}"));
    let noise = whole("noise factor", written, 1, 16).map_err(wrong)?;
    // The library looks at the factor first, before it finds that there are no channels.
    let none = kovrelna::Run {
        ticks: &[],
        values: &[],
        lengths: &[],
    };
    let zero = Tolerance::Counts(0.0);
    match kovrelna::pedestals(none, none, zero, noise, &mut [], &mut []) {
        Err(refusal @ Refusal::Factor) => Err(wrong(refusal.to_string())),
        _ => Ok(noise),
    }
}

/// The exact sums of a trace's values.
struct Sums {
    samples: i64,
    sum: i64,
    squares: i64,
}

impl Sums {
    fn of(values: &[i16]) -> Sums {
        let values = || values.iter().copied().map(i64::from);
        Sums {
            samples: values().count() as i64,
            sum: values().sum(),
            squares: values().map(|value| value * value).sum(),
        }
    }

    /// The square of the width times that of the number of samples.
    fn spread(&self) -> u64 {
        (self.samples * self.squares - self.sum * self.sum) as u64
    }

    /// So many times the width, rounded.
    fn width(&self, times: u64) -> String {
        rounded::root(times * times * self.spread(), self.samples as u64)
    }

    /// The mean, rounded.
    fn mean(&self) -> String {
        rounded::ratio(self.sum, self.samples)
    }
}

/// A channel of both runs.
struct Row<'a> {
    channel: &'a Channel,
    /// The names of the files of both runs.
    names: [&'a OsStr; 2],
    today: Sums,
    yesterday: Sums,
    moved: bool,
    noisy: bool,
}

impl Row<'_> {
    fn is_listed(&self) -> bool {
        self.moved || self.noisy
    }
}

/// The channels of both runs, of which the library says whether they have moved or are noisy.
fn rows<'a>(today: &'a Run, yesterday: &'a Run, limits: &Limits) -> Result<Vec<Row<'a>>, Failure> {
    today.must_be_paired(yesterday)?;
    let count = today.channels.len();
    let (mut moved, mut noisy) = (vec![0; count], vec![0; count]);
    let traces = |run: &Run| Traces::of(run.channels.iter().map(|channel| &channel.text));
    let compared = kovrelna::pedestals(
        traces(today).run(),
        traces(yesterday).run(),
        both(limits.held).into(),
        limits.noise,
        &mut moved,
        &mut noisy,
    );
    let compared = compared.map_err(|refusal| match refusal {
        Refusal::Samples(channel) => {
            let (one, other) = (&today.channels[channel], &yesterday.channels[channel]);
            let [one, other] = [one, other].map(|channel| channel.text.ticks.len());
            let channel = today.channels[channel].words();
            let counts = format!(" has {one} samples, and {other} in ");
            let cause = joined(&[&channel, &counts, &yesterday.name]);
            Failure::Told(joined(&[&today.name, &": ", &cause]))
        }
        refusal => Failure::at(&today.name, refusal),
    })?;
    let row = |(place, (one, other)): (u16, (&'a Channel, &'a Channel))| Row {
        channel: one,
        names: [&one.text.name, &other.text.name],
        today: Sums::of(&one.text.values),
        yesterday: Sums::of(&other.text.values),
        moved: moved[..compared.moved].contains(&place),
        noisy: noisy[..compared.noisy].contains(&place),
    };
    let pairs = today.channels.iter().zip(&yesterday.channels);
    Ok((0..).zip(pairs).map(row).collect())
}

/// How many channels there are, and how many of them are listed, and why.
struct Summary {
    channels: usize,
    listed: usize,
    moved: usize,
    noisy: usize,
}

impl Summary {
    fn of(rows: &[Row]) -> Summary {
        let count = |is: fn(&&Row) -> bool| rows.iter().filter(is).count();
        Summary {
            channels: rows.len(),
            listed: count(|row| row.is_listed()),
            moved: count(|row| row.moved),
            noisy: count(|row| row.noisy),
        }
    }
}

impl Display for Summary {
    fn fmt(&self, f: &mut Formatter) -> fmt::Result {
        let (listed, channels) = (self.listed, self.channels);
        let (moved, noisy) = (self.moved, self.noisy);
        write!(
            f,
            "{listed} of {channels} channels: {moved} moved, {noisy} noisy"
        )
    }
}

/// The names of the columns, but for the file's.
const COLUMNS: [&str; 9] = [
    "channel",
    "change",
    "mean",
    "yesterday",
    "difference",
    "limit",
    "width",
    "yesterday",
    "limit",
];

/// A line for each listed channel in columns of equal width, if there is one, and the summary.
fn lines(rows: &[Row], limits: &Limits, summary: &Summary) -> OsString {
    let summary = OsString::from(format!("{summary}\n"));
    let Limits { held, noise } = limits;
    let rows: Vec<&Row> = rows.iter().filter(|row| row.is_listed()).collect();
    if rows.is_empty() {
        return summary;
    }
    let in_files = rows.iter().any(|row| !row.channel.file.is_empty());
    let last = if in_files { "file" } else { "" };
    let files: Vec<OsString> = rows.iter().map(|row| shown(&row.channel.file)).collect();
    let mut lines = vec![(COLUMNS.map(String::from), OsStr::new(last))];
    for (row, file) in rows.iter().zip(&files) {
        let Row {
            today, yesterday, ..
        } = row;
        let change = match (row.moved, row.noisy) {
            (true, true) => "moved noisy",
            (true, false) => "moved",
            _ => "noisy",
        };
        let fields = [
            row.channel.number.to_string(),
            change.to_string(),
            today.mean(),
            yesterday.mean(),
            rounded::ratio(today.sum - yesterday.sum, today.samples),
            rounded::ratio(held.p as i64, held.q as i64),
            today.width(1),
            yesterday.width(1),
            yesterday.width(*noise),
        ];
        lines.push((fields, file));
    }
    let heading = format!(
        "# moved: the means differ by more than {}; noisy: the width is over {noise} times \
         yesterday's\n\
         # means, widths and limits are rounded to 1/1000 in print, and compared exactly\n",
        ratio(*held)
    );
    joined(&[&heading, &table::aligned(&lines), &summary])
}

/// The lines for a spreadsheet, with the sums in place of the means and widths, which are rounded.
fn csv(rows: &[Row], limits: &Limits, summary: &Summary) -> OsString {
    let heading = "channel,moved,noisy,samples,sum today,squares today,sum yesterday,\
                   squares yesterday,tolerance p,tolerance q,noise,today,yesterday,summary\n";
    let Ratio { p, q } = limits.held;
    let limits = format!("{p},{q},{}", limits.noise);
    let mut lines = OsString::from(heading);
    for row in rows.iter().filter(|row| row.is_listed()) {
        let (number, moved, noisy) = (row.channel.number, row.moved as u8, row.noisy as u8);
        let Row {
            today, yesterday, ..
        } = row;
        let sums = [
            today.samples,
            today.sum,
            today.squares,
            yesterday.sum,
            yesterday.squares,
        ];
        let sums = sums.map(|sum| sum.to_string()).join(",");
        let fields = format!("{number},{moved},{noisy},{sums},{limits},");
        let [today, yesterday] = row.names.map(quoted);
        lines.push(joined(&[&fields, &today, &",", &yesterday, &",\"\"\n"]));
    }
    let (moved, noisy) = (summary.moved, summary.noisy);
    lines.push(format!(
        "total,{moved},{noisy},,,,,,{limits},\"\",\"\",\"{summary}\"\n"
    ));
    lines
}

/// The picture of both runs, which have these names.
fn picture(rows: &[Row], limits: &Limits, summary: &Summary, names: [&OsStr; 2]) -> String {
    let Limits { held, noise } = limits;
    let Ratio { p, q } = *held;
    let tolerance = budget::ratio(*held);
    let last = |name: &'_ OsStr| {
        let last = Path::new(name).file_name().unwrap_or(name);
        last.to_string_lossy().into_owned()
    };
    let names = names.map(last).join(", ");
    let title = format!("{summary}, tolerance {tolerance}, noise {noise}: {names}");
    let channel = |row: &Row| {
        let (today, yesterday) = (&row.today, &row.yesterday);
        let samples = today.samples as f64;
        let mean = |sums: &Sums| sums.sum as f64 / samples;
        let width = |sums: &Sums| (sums.spread() as f64).sqrt() / samples;
        levels::Channel {
            number: row.channel.number,
            means: (mean(today), mean(yesterday)),
            difference: (today.sum - yesterday.sum) as f64 / samples,
            widths: (width(today), width(yesterday)),
            moved: row.moved,
            noisy: row.noisy,
        }
    };
    let levels = Levels {
        channels: rows.iter().map(channel).collect(),
        tolerance: p as f64 / q as f64,
        noise: *noise as f64,
    };
    levels::draw(&title, &levels)
}
