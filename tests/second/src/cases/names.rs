//! Lists of names for the writer, each ended by byte 10 unless the list is to be refused.

use super::random::Random;

/// A maker of one name, handed the name before.
type Maker = fn(&mut Random, &[u8]) -> Vec<u8>;

const MAKERS: [Maker; 10] = [
    illumina,
    pacbio,
    nanopore,
    any_bytes,
    digit_heavy,
    many_runs,
    stepped,
    longest,
    repeated,
    punctuated,
];

/// Good names only.
pub fn good(random: &mut Random, most: usize) -> Vec<Vec<u8>> {
    let main = random.pick(&MAKERS);
    let mut names: Vec<Vec<u8>> = Vec::new();
    for _ in 0..random.between(0, most) {
        let before = names.last().cloned().unwrap_or_default();
        let maker = if random.percent(80) {
            main
        } else {
            random.pick(&MAKERS)
        };
        let name = maker(random, &before);
        names.push(name);
    }
    names
}

/// One or two names of punctuation, letters and digits.
pub fn with_punctuation(random: &mut Random) -> Vec<Vec<u8>> {
    let first = punctuated(random, b"");
    let mut names = vec![first];
    if random.percent(70) {
        names.push(touched(random, &names[0]));
    }
    names
}

/// The names as the writer takes them.
pub fn ended(names: &[Vec<u8>]) -> Vec<u8> {
    let mut input = names.join(&b'\n');
    if !names.is_empty() {
        input.push(b'\n');
    }
    input
}

/// Something a good list doesn't have: a bad byte, an empty or long name, no last byte 10.
pub fn spoil(random: &mut Random, input: &mut Vec<u8>) {
    let place = random.below(input.len() + 1);
    match random.below(5) {
        0 => input.insert(place, random.pick(&[0, 9, 13, 32, 64, 127, 128, 255])),
        1 => input.insert(place, b'\n'),
        2 => drop(input.splice(place..place, vec![b'x'; 255])),
        3 => drop(input.pop()),
        _ => input.push(random.allowed()),
    }
}

fn illumina(random: &mut Random, _: &[u8]) -> Vec<u8> {
    let tile = 1101 + random.below(3);
    let (x, y) = (random.below(32_768), random.below(100_000));
    let name = if random.percent(30) {
        let mate = random.between(1, 2);
        format!("HS25_09827:2:{tile}:{x}:{y:05}#49/{mate}")
    } else {
        let lane = random.between(1, 4);
        format!("A00253:148:HM7TYDSXX:{lane}:{tile}:{x}:{y}")
    };
    name.into_bytes()
}

fn pacbio(random: &mut Random, _: &[u8]) -> Vec<u8> {
    let hole = 4_194_300 + random.below(200);
    let start = random.below(20_000);
    let end = start + random.below(9_000);
    format!("m54006_160504_020705/{hole}/{start}_{end}").into_bytes()
}

fn nanopore(random: &mut Random, _: &[u8]) -> Vec<u8> {
    let high = random.draw();
    let low = random.draw();
    let groups = [high >> 32, high >> 16 & 0xFFFF, high & 0xFFFF, low >> 48];
    let [a, b, c, d] = groups;
    format!(
        "{a:08x}-{b:04x}-{c:04x}-{d:04x}-{:012x}",
        low & 0xFFFF_FFFF_FFFF
    )
    .into_bytes()
}

fn any_bytes(random: &mut Random, _: &[u8]) -> Vec<u8> {
    let most = random.pick(&[3, 20, 254]);
    let length = random.between(1, most);
    (0..length).map(|_| random.allowed()).collect()
}

fn digit_heavy(random: &mut Random, _: &[u8]) -> Vec<u8> {
    let length = random.between(1, 40);
    let byte = |_| match random.below(12) {
        0 => random.allowed(),
        1..=3 => b'0',
        4..=6 => b'9',
        _ => random.digit(),
    };
    (0..length).map(byte).collect()
}

/// Around 127 tokens: runs of one or two bytes, digits and letters by turns.
fn many_runs(random: &mut Random, _: &[u8]) -> Vec<u8> {
    let runs = random.between(120, 132);
    let mut name = Vec::new();
    let mut digits = random.percent(50);
    for _ in 0..runs {
        for _ in 0..random.pick(&[1, 1, 1, 2]) {
            name.push(if digits {
                random.digit()
            } else {
                b'a' + random.below(4) as u8
            });
        }
        digits = !digits;
    }
    name.extend((0..random.below(30)).map(|_| random.digit()));
    name.truncate(254);
    name
}

/// Punctuation, the bytes next to the digits and letters among it, letters of both cases with
/// the first and last of each, and digits; one token or many, often around 127 of them.
fn punctuated(random: &mut Random, before: &[u8]) -> Vec<u8> {
    if !before.is_empty() && random.percent(40) {
        return touched(random, before);
    }
    if random.percent(15) {
        return with_a_rest(random);
    }
    let mut name = Vec::new();
    let tokens = match random.below(4) {
        0 => random.between(124, 130),
        1 => random.between(1, 3),
        _ => random.between(1, 30),
    };
    let alone = random.pick(&[50, 90, 98, 100]);
    for _ in 0..tokens {
        if random.percent(alone) {
            name.push(random.pick(b"_:/[`{!~?"));
            continue;
        }
        let run = if random.percent(50) {
            b"AZazMm"
        } else {
            b"019019"
        };
        let length = random.pick(&[1, 1, 2, 3, 10]);
        name.extend((0..length).map(|_| random.pick(run)));
    }
    if random.percent(10) {
        name.resize(random.between(252, 254), b'_');
    }
    name.truncate(254);
    name
}

/// 126 tokens of one byte, or one less or more, and what is left for position 127.
fn with_a_rest(random: &mut Random) -> Vec<u8> {
    let alone = random.pick(&[125, 126, 126, 126, 127]);
    let rests = [
        &b""[..],
        b"_",
        b"7",
        b"z",
        b"__",
        b"a_1",
        b"12",
        b"Zz",
        b"0_",
    ];
    let mut name: Vec<u8> = (0..alone).map(|_| random.pick(b"_:[`{")).collect();
    name.extend(random.pick(&rests));
    name
}

/// The name before with one byte another, a byte more or a byte less.
fn touched(random: &mut Random, before: &[u8]) -> Vec<u8> {
    let mut name = before.to_vec();
    let place = random.below(name.len());
    let byte = random.pick(b"_:[`{aZz019");
    match random.below(4) {
        0 if name.len() > 1 => drop(name.remove(place)),
        1 if name.len() < 254 => name.insert(place, byte),
        2 if name[place].is_ascii_digit() => name[place] = (name[place] + 1).min(b'9'),
        _ => name[place] = byte,
    }
    name
}

/// The name before with one number moved a little, or one byte changed.
fn stepped(random: &mut Random, before: &[u8]) -> Vec<u8> {
    let text = String::from_utf8_lossy(before).into_owned();
    let Some(end) = text.rfind(|letter: char| letter.is_ascii_digit()) else {
        return illumina(random, before);
    };
    let start = text[..end].rfind(|letter: char| !letter.is_ascii_digit());
    let start = start
        .map_or(0, |place| place + 1)
        .max(end.saturating_sub(8));
    let number: u64 = text[start..=end].parse().unwrap_or(0);
    let step = random.pick(&[0, 1, 2, 100, 254, 255, 256, 257]);
    let width = end + 1 - start;
    let moved = if random.percent(80) {
        number + step
    } else {
        number.saturating_sub(step)
    };
    let name = format!("{}{moved:0width$}{}", &text[..start], &text[end + 1..]);
    name.into_bytes().into_iter().take(254).collect()
}

fn longest(random: &mut Random, _: &[u8]) -> Vec<u8> {
    let length = random.between(252, 254);
    let digits = random.pick(&[0, 50, 100]);
    let byte = |_| {
        if random.percent(digits) {
            random.digit()
        } else {
            b'Q'
        }
    };
    (0..length).map(byte).collect()
}

fn repeated(random: &mut Random, before: &[u8]) -> Vec<u8> {
    if before.is_empty() || random.percent(30) {
        digit_heavy(random, before)
    } else {
        before.to_vec()
    }
}
