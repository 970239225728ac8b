//! The tables of times that a run prints, and what stands behind a figure.

use crate::clock::Rounds;
use crate::figures::Figures;
use crate::names::{of_tokens, Names, FAMILIES, ILLUMINA};
use crate::replays;
use crate::work::{Call, Holder, WritingRoom, CALLS};
use second::directory::MOST_NAMES;
use std::fmt::Display;

/// For every figure, be it a time or instructions.
pub const LENT: &str = "\
Library and second program are lent the same buffers. None is cleared between rounds: a round writes over what the
one before it left there.
Reading is lent the block's bytes and no more, as many bytes of text as the input has, five numbers a name, and five
for each byte of a name, which are as many rows as there can be. Single reads: an opening, a read a name, and the one
that says done. Claims: each name once, as it is, out of order.
Writing, exact, is lent as many bytes as it fills; writing, ample, six for each byte of the input, which suffice for
any names, so that nobody counts first. tok3 makes its own room, and its entropy coding is included.
Afresh: every so many-th name of the block that is read starts afresh (DIFF 0), which writing never makes; so many
names are written at a time, and the streams put one behind the other.
A replay is lent the trace and a model, which starts anew each time.
Names of a file are taken in blocks of at most 65,536, and what the blocks take is added up.";

const TIMES: &str = "
Times are the processor's nanoseconds, each the shortest of its rounds, after one that isn't counted. What stands in
one line is taken by turns, and so is all about names that start afresh; any other figure that stands in several tables
is one measurement.
";

pub fn print(names: Option<Names>, rounds: Rounds) -> Result<(), String> {
    println!("{TIMES}");
    println!("Time a name, and the library's as a ratio to the others'");
    println!(
        "{:14} {:>8}  {:14} {:>9} {:>9} {:>6} {:>9} {:>6}",
        "names", "count", "call", "library", "second", "ratio", "tok3", "ratio"
    );
    match names {
        Some(names) => {
            let figures = against_the_others(&names, rounds)?;
            against_a_plain_loop(&figures);
            afresh(&names, rounds)?;
        }
        None => {
            let mut compared = Vec::new();
            for family in &FAMILIES {
                for count in [1_000, MOST_NAMES] {
                    compared.push(against_the_others(&family.names(count), rounds)?);
                }
            }
            let [small, large, ..] = &compared[..] else {
                unreachable!("two of the first family")
            };
            against_a_plain_loop(small);
            afresh(&ILLUMINA.names(1_000), rounds)?;
            growth(small, large, rounds)?;
            replays::print(rounds);
        }
    }
    Ok(())
}

/// Library against second program and reference library, every call.
fn against_the_others(names: &Names, rounds: Rounds) -> Result<Figures, String> {
    let figures = Figures::of(names, rounds)?;
    for (word, call) in CALLS {
        let cell = |holder| {
            let ratio = of_library(&figures, call, holder);
            format!("{} {}", time(&figures, call, holder), ratio_cell(ratio))
        };
        println!(
            "{:14} {:>8}  {word:14} {} {} {}",
            figures.word,
            figures.count,
            time(&figures, call, Holder::Library),
            cell(Holder::Second),
            cell(Holder::Tok3)
        );
    }
    Ok(figures)
}

/// A single read against the judging pass alone, as a plain loop over the same tables.
fn against_a_plain_loop(figures: &Figures) {
    let call = Call::SingleReads;
    println!("\nOne read, and a plain loop with the same comparisons of the same 1,290 spans and cursors");
    println!("{}, {} names", figures.word, figures.count);
    let read = time(figures, call, Holder::Library);
    println!("{:32} {read}", "single read");
    for (word, holder) in [
        ("no early way out", Holder::Plain),
        ("early way out", Holder::PlainWithWayOut),
    ] {
        let name = format!("plain loop, {word}");
        let ratio = ratio_cell(of_library(figures, call, holder));
        let time = time(figures, call, holder);
        println!("{name:32} {time}  read/loop {}", ratio.trim_start());
    }
}

fn time(figures: &Figures, call: Call, holder: Holder) -> String {
    let time = figures.a_name(call, holder);
    time.map_or_else(|| format!("{:>9}", "-"), |time| format!("{time:>9.1}"))
}

fn of_library(figures: &Figures, call: Call, holder: Holder) -> Option<f64> {
    let library = figures.a_name(call, Holder::Library)?;
    Some(library / figures.a_name(call, holder)?)
}

fn ratio_cell(ratio: Option<f64>) -> String {
    ratio.map_or_else(|| format!("{:>6}", "-"), |ratio| format!("{ratio:>6.2}"))
}

fn library_a_name(figures: &Figures, call: Call) -> f64 {
    let time = figures.a_name(call, Holder::Library);
    time.expect("the library has every call")
}

/// The library's reading where names start afresh, against the same names as they are written.
fn afresh(names: &Names, rounds: Rounds) -> Result<(), String> {
    println!(
        "\nNames that start afresh ({}, {} names): time a name, and its ratio to the first line",
        names.word,
        names.count()
    );
    let ways = [names, &names.afresh(64), &names.afresh(1)];
    let [written, some, all] = &Figures::by_turns(ways, rounds)?;
    let lines = [("first", written), ("64th", some), ("all", all)];
    let shown = [Call::WholeBlock, Call::SingleReads];
    grow("afresh", &shown, lines, library_a_name);
    Ok(())
}

/// How the library's time grows with names and with tokens.
fn growth(small: &Figures, large: &Figures, rounds: Rounds) -> Result<(), String> {
    println!(
        "\nHow cost grows with names (Illumina-like): time a name, and its ratio to the first line"
    );
    let between = [4_000, 16_000].map(|count| Figures::of(&ILLUMINA.names(count), rounds));
    let [fewer, more] = between;
    let (fewer, more) = (fewer?, more?);
    let lines = [small, &fewer, &more, large].map(|figures| (figures.count, figures));
    let shown = [
        Call::WholeBlock,
        Call::SingleReads,
        Call::Writing(WritingRoom::Exact),
        Call::Writing(WritingRoom::Ample),
    ];
    grow("names", &shown, lines, library_a_name);

    println!(
        "\nHow cost grows with tokens (1,000 names): time a token, and its ratio to the first line"
    );
    let mut of = Vec::new();
    for tokens in [2, 8, 32, 126] {
        of.push((tokens, Figures::of(&of_tokens(tokens, 1_000), rounds)?));
    }
    let lines = of.iter().map(|(tokens, figures)| (*tokens, figures));
    grow("tokens", &shown, lines, Figures::a_token);
    Ok(())
}

fn grow<'a>(
    word: &str,
    shown: &[Call],
    lines: impl IntoIterator<Item = (impl Display, &'a Figures)>,
    each: impl Fn(&Figures, Call) -> f64,
) {
    let words = CALLS.iter().filter(|(_, call)| shown.contains(call));
    let heads: Vec<String> = words
        .map(|(word, _)| format!("{word:>14} {:>6}", "ratio"))
        .collect();
    println!("{word:>8} {}", heads.join(" "));
    let mut first = None;
    for (label, figures) in lines {
        let times: Vec<f64> = shown.iter().map(|call| each(figures, *call)).collect();
        let base: &Vec<f64> = first.get_or_insert_with(|| times.clone());
        let cells = times.iter().zip(base);
        let cells: Vec<String> = cells
            .map(|(time, base)| format!("{time:>14.1} {:>6.2}", time / base))
            .collect();
        println!("{label:>8} {}", cells.join(" "));
    }
}
