//! Recordings and drills made from a seed, as cases for tests/box/recordings.c, which says what their lines and answers hold; and the answers
//! that the second reading of W-204 expects.

use crate::recording::{self, MOST, Progress, Summary};
use crate::syllable::{Letter, Mode};
use crate::typing::{Refused, allowed};
use crate::{Dice, KEYS, any_bytes, drill_keys, words_of};

/// Recordings written down by hand, with what their replay gives. The text has a slash for each newline; a hyphen stands for nothing.
const VECTORS: &str = include_str!("../vectors/recordings.tsv");

pub enum Case {
    Replay { recording: Vec<u8>, room: usize },
    Write { mode: u8, presses: Vec<u64>, room: usize },
    Walk { recording: Vec<u8> },
    Step { recording: Vec<u8>, mode: u8, at: usize, progress: Progress },
}

/// What stands where nothing has been written, as in tests/box/recordings.c.
const UNWRITTEN: u64 = 4711;
const GUARD: usize = 8;

fn hex(bytes: &[u8]) -> String {
    bytes.iter().map(|b| format!("{b:02x}")).collect()
}

fn spaced(numbers: &[u64]) -> String {
    numbers.iter().map(u64::to_string).collect::<Vec<_>>().join(" ")
}

/// The output after a call that wrote these bytes.
fn output(room: usize, bytes: &[u8]) -> String {
    let mut output = vec![b'#'; GUARD + room + GUARD];
    output[GUARD..GUARD + bytes.len()].copy_from_slice(bytes);
    hex(&output)
}

fn replayed(answer: Result<(Vec<u8>, Summary), Refused>, room: usize) -> String {
    let mut numbers = [UNWRITTEN; 8];
    let (returned, value, bytes) = match answer {
        Ok((bytes, summary)) => {
            numbers[..7].copy_from_slice(&summary);
            (0, bytes.len(), bytes)
        }
        Err((number, value)) => (number, value, vec![]),
    };
    format!("R {returned} {value} {} {}", spaced(&numbers), output(room, &bytes))
}

fn stepped(recording: &[u8], mode: u8, at: &mut usize, progress: &mut Progress) -> (String, bool) {
    let answer = recording::next(recording, mode, at, progress);
    let (returned, value) = answer.map_or_else(|(number, place)| (number, place as u64), |press| (0, press.unwrap_or(0)));
    let more = answer.map_or(false, |press| press.is_some());
    (format!("{returned} {value} {at} {} {}", progress.in_word, progress.milliseconds), more)
}

fn walked(recording: &[u8]) -> String {
    let (mode, mut at) = match recording::begin(recording) {
        Ok(begun) => begun,
        Err((number, place)) => return format!("S {number} {place} {UNWRITTEN}"),
    };
    let mut said = format!("S 0 {mode} {at}");
    let mut progress = Progress::new();
    let mut ends = 0;
    while ends < 2 {
        let (step, more) = stepped(recording, mode, &mut at, &mut progress);
        said += &format!(" | {step}");
        ends += !more as usize;
    }
    said
}

impl Case {
    pub fn line(&self) -> String {
        match self {
            Case::Replay { recording, room } => format!("R {room} {}", hex(recording)),
            Case::Write { mode, presses, room } => {
                let presses: String = presses.iter().map(|press| format!(" {press}")).collect();
                format!("W {mode} {room}{presses}")
            }
            Case::Walk { recording } => format!("S {}", hex(recording)),
            Case::Step { recording, mode, at, progress } => format!("N {mode} {at} {} {} {}", progress.in_word, progress.milliseconds, hex(recording)),
        }
    }

    pub fn answer(&self) -> String {
        match *self {
            Case::Replay { ref recording, room } => replayed(recording::replay(recording, room), room),
            Case::Write { mode, ref presses, room } => match recording::write(mode, presses, room) {
                Ok(bytes) => format!("W 0 {} {}", bytes.len(), output(room, &bytes)),
                Err((number, value)) => format!("W {number} {value} {}", output(room, &[])),
            },
            Case::Walk { ref recording } => walked(recording),
            Case::Step { ref recording, mode, mut at, mut progress } => format!("N {}", stepped(recording, mode, &mut at, &mut progress).0),
        }
    }

    /// Is what is written read back as the same drill, and what is read written back byte for byte?
    pub fn goes_back(&self) -> bool {
        match self {
            Case::Write { mode, presses, .. } => recording::write(*mode, presses, usize::MAX).map_or(true, |bytes| recording::read(&bytes) == Ok((*mode, presses.clone()))),
            Case::Walk { recording } => recording::read(recording).map_or(true, |(mode, presses)| recording::write(mode, &presses, usize::MAX) == Ok(recording.clone())),
            _ => true,
        }
    }
}

/// English words, of which Telex takes some keys for marks.
const ENGLISH: &str = "a I text expect test tesla case core cream class browser windows Queen off boss error Saturday follow week good wow xerox jazz zoo award address";

/// The keys of a word, almost always such as the mode allows, and no more than a word takes; now and then one more.
fn word(dice: &mut Dice, mode: Mode, forms: &[Vec<Letter>]) -> Vec<u8> {
    let of_mode: Vec<u8> = KEYS.iter().copied().filter(|&key| allowed(mode, key)).collect();
    let mut keys = match dice.roll(16) {
        0 | 1 => vec![],
        2 | 3 => words_of(dice, ENGLISH).as_bytes().to_vec(),
        4 => return (0..*dice.of(&[31, 32, 32, 33])).map(|_| *dice.of(&of_mode)).collect(),
        _ => drill_keys(dice, mode, forms),
    };
    if dice.roll(40) > 0 {
        keys.retain(|&key| allowed(mode, key));
        keys.truncate(32);
    }
    keys
}

/// The last number of one, two, three and four groups, and the first of one more.
const BORDERS: [u64; 8] = [127, 128, 16383, 16384, 2097151, 2097152, 268435455, 268435456];

/// Milliseconds: a few, at a border, and rarely all that are left, or one more.
fn time(dice: &mut Dice, left: u64) -> u64 {
    match dice.roll(300) {
        0 => left,
        1 => left + 1,
        2..=40 => left.min(*dice.of(&BORDERS)),
        _ => left.min(dice.roll(400) as u64),
    }
}

/// Words that are kept, restored, undone and acted on, to be typed again and again.
const MANY: [&[u8]; 5] = [b" ", b"text ", b"aaa ", b"a11 ", b"asfrxjsfrxj "];

/// The times and keys of a drill; no more than the buffers of tests/box/recordings.c hold.
struct Drill {
    mode: u8,
    presses: Vec<(u64, u8)>,
}

fn drill(dice: &mut Dice, forms: &[Vec<Letter>]) -> Drill {
    let (mode, of) = *dice.of(&[(0, Mode::Telex), (1, Mode::Vni)]);
    // more of everything than a byte counts
    if dice.roll(200) == 0 {
        let keys = dice.of(&MANY).repeat(500).into_iter().filter(|&key| key == b' ' || allowed(of, key));
        return Drill { mode, presses: keys.take(1800).map(|key| (dice.roll(128) as u64, key)).collect() };
    }
    let mut keys = vec![];
    for _ in 0..dice.roll(8) {
        keys.extend(word(dice, of, forms));
        keys.push(b' ');
    }
    // the last word without its space
    if dice.roll(2) == 0 {
        keys.pop();
    }
    keys.truncate(400);
    let mut left = MOST;
    let mut presses = vec![];
    for key in keys {
        let time = time(dice, left);
        left = left.saturating_sub(time);
        presses.push((time, key));
    }
    Drill { mode, presses }
}

/// Numbers that are no key, or not in each mode, and those beside them; as a mode, 0 and 1 are the only ones.
const NUMBERS: [u64; 25] = [0, 1, 2, 31, 32, 33, 47, 48, 57, 58, 64, 65, 90, 91, 96, 122, 123, 127, 128, 255, 256, 257, 288, 353, MOST];

/// Six groups and more; 2 to the 32 less 1, itself and more in five groups.
const LONG: [&[u8]; 8] = [
    &[0x80, 0x80, 0x80, 0x80, 0x80, 0x01],
    &[0xE1, 0x80, 0x80, 0x80, 0x80, 0x00],
    &[0xFF, 0xFF, 0xFF, 0xFF, 0xFF, 0xFF, 0xFF, 0xFF, 0xFF, 0x01],
    &[0xFF, 0xFF, 0xFF, 0xFF, 0x0F],
    &[0x80, 0x80, 0x80, 0x80, 0x10],
    &[0xE1, 0x80, 0x80, 0x80, 0x10],
    &[0xFF, 0xFF, 0xFF, 0xFF, 0x1F],
    &[0xFF, 0xFF, 0xFF, 0xFF, 0x7F],
];

/// A number in its place: one that may be wrong there, the same with superfluous groups, or a long one.
fn exchange(dice: &mut Dice, number: &mut Vec<u8>) {
    match dice.roll(4) {
        0 => *number = dice.of(&LONG).to_vec(),
        1 => {
            for _ in 0..1 + dice.roll(5) {
                *number.last_mut().unwrap() |= 128;
                number.push(0);
            }
        }
        _ => *number = recording::written(*dice.of(&NUMBERS)),
    }
}

/// One byte changed, put in or taken out, or the end cut off.
fn damage(dice: &mut Dice, bytes: &mut Vec<u8>) {
    let at = dice.roll(bytes.len() + 1);
    let byte = *dice.of(&[0x00, 0x01, 0x20, 0x31, 0x61, 0x80, 0xFF, dice.0 as u8]);
    match dice.roll(5) {
        0 => bytes.insert(at, byte),
        1 => bytes.truncate(at),
        _ if at == bytes.len() => bytes.push(byte),
        2 => drop(bytes.remove(at)),
        3 => bytes[at] = byte,
        _ => bytes[at] ^= 1 << dice.roll(8),
    }
}

/// The drill as it is recorded, or as it should not be.
fn recorded(dice: &mut Dice, drill: &Drill) -> Vec<u8> {
    let mut numbers = vec![recording::written(u64::from(drill.mode))];
    for &(time, key) in &drill.presses {
        numbers.push(recording::written(time));
        numbers.push(recording::written(u64::from(key)));
    }
    let (exchanged, damaged) = *dice.of(&[(0, 0), (0, 0), (0, 0), (0, 0), (1, 0), (2, 0), (0, 1), (0, 2), (1, 1)]);
    let from = if dice.roll(6) == 0 { 0 } else { dice.roll(numbers.len()) };
    // two are neighbours, such as a time and its key
    for number in numbers[from..].iter_mut().take(exchanged) {
        exchange(dice, number);
    }
    let mut bytes = numbers.concat();
    for _ in 0..damaged {
        damage(dice, &mut bytes);
    }
    if dice.roll(60) == 0 { any_bytes(dice, 12) } else { bytes }
}

/// An output for so many bytes: just enough, one too few, none, or more.
fn room(dice: &mut Dice, needed: usize) -> usize {
    match dice.roll(6) {
        0 => 0,
        1 => needed.saturating_sub(1),
        2 | 3 => needed,
        _ => needed + dice.roll(40),
    }
}

fn replay_case(dice: &mut Dice, recording: Vec<u8>) -> Case {
    let needed = recording::replay(&recording, usize::MAX).map_or(30, |(bytes, _)| bytes.len());
    Case::Replay { recording, room: room(dice, needed) }
}

/// A press with a faulty key, with too many milliseconds, or with both.
fn fault(dice: &mut Dice, (time, key): &mut (u64, u8)) {
    let faults = dice.roll(3);
    if faults != 0 {
        *key = *dice.of(&[0, 31, 33, b'0', b'9', b'@', b'[', b'`', b'{', 127, 128, 255]);
    }
    if faults != 1 {
        *time = *dice.of(&[MOST, MOST + 1, MOST + 2, 1 << 40, 1 << 55, (1 << 56) - 1]);
    }
}

/// The drill for the writer, as it is or with faults; also a word of 33 keys, of which the last is faulty.
fn write_case(dice: &mut Dice, drill: Drill) -> Case {
    let mut presses = drill.presses;
    for _ in 0..*dice.of(&[0, 0, 0, 1, 1, 2]) {
        let at = dice.roll(presses.len() + 1);
        if at == presses.len() || dice.roll(3) == 0 {
            let mut word = vec![(0, b' ')];
            word.extend(vec![(1, b'a'); 33]);
            presses.splice(at..at, word);
            if dice.roll(4) > 0 {
                fault(dice, &mut presses[at + 33]);
            }
        } else {
            fault(dice, &mut presses[at]);
        }
    }
    let mode = if dice.roll(12) == 0 { *dice.of(&[0, 1, 2, 3, 128, 255]) } else { drill.mode };
    let presses: Vec<u64> = presses.iter().map(|&(time, key)| u64::from(key) + 256 * time).collect();
    let needed = recording::write(mode, &presses, usize::MAX).map_or(30, |bytes| bytes.len());
    Case::Write { mode, presses, room: room(dice, needed) }
}

/// The places where a step starts, the end or that of the first refused step the last.
fn starts(recording: &[u8]) -> Vec<usize> {
    let Ok((mode, mut at)) = recording::begin(recording) else { return vec![0] };
    let mut progress = Progress::new();
    let mut starts = vec![at];
    while let Ok(Some(_)) = recording::next(recording, mode, &mut at, &mut progress) {
        starts.push(at);
    }
    starts
}

/// A step with any numbers: those that just fit or just do not, and those that would if bits were lost.
fn step_case(dice: &mut Dice, recording: Vec<u8>) -> Case {
    let mode = *dice.of(&[0, 0, 1, 1, 2, 255]);
    let at = match dice.roll(8) {
        0 => dice.roll(recording.len() + 3),
        1 => *dice.of(&[1 << 32, 1 << 63, usize::MAX]),
        _ => *dice.of(&starts(&recording)),
    };
    let time = recording::number_at(&recording, at).map_or(0, |(time, _)| time);
    let milliseconds = match dice.roll(6) {
        0 => MOST - time,
        1 => MOST - time + 1,
        2 => u64::wrapping_sub(0, time),
        3 => *dice.of(&[MOST - 1, MOST, 1 << 32, 1 << 63, u64::MAX]),
        _ => dice.roll(1000) as u64,
    };
    let in_word = *dice.of(&[0, 0, 1, 5, 30, 31, 31, 32, 33, 256, 1 << 32, usize::MAX]);
    Case::Step { recording, mode, at, progress: Progress { in_word, milliseconds } }
}

/// The four cases of one drill.
fn of_drill(dice: &mut Dice, forms: &[Vec<Letter>]) -> Vec<Case> {
    let drill = drill(dice, forms);
    let recording = recorded(dice, &drill);
    vec![replay_case(dice, recording.clone()), Case::Walk { recording: recording.clone() }, step_case(dice, recording), write_case(dice, drill)]
}

fn from_hex(text: &str) -> Vec<u8> {
    let digits: Vec<u8> = text.chars().filter_map(|c| c.to_digit(16)).map(|d| d as u8).collect();
    digits.chunks(2).map(|pair| 16 * pair[0] + pair[1]).collect()
}

/// Each recording written down by hand, with the columns that should stand there and those that its replay gives.
pub fn vectors() -> Vec<(Vec<u8>, String, String)> {
    let columns = |row: &str| -> (Vec<u8>, String, String) {
        let (recording, should) = row.split_once('\t').expect("a recording and its columns");
        let should = should.split_once('\t').expect("what it shows").1;
        let recording = from_hex(recording);
        let is = match recording::replay(&recording, usize::MAX) {
            Ok((bytes, summary)) => {
                let text = String::from_utf8(bytes).unwrap().replace('\n', "/");
                format!("{} {}", if text.is_empty() { "-" } else { &text }, spaced(&summary))
            }
            Err((number, value)) => format!("! {number} {value}"),
        };
        (recording, should.trim_end().replace('\t', " "), is)
    };
    VECTORS.lines().skip(1).map(columns).collect()
}

/// The cases of so many recordings: first those written down by hand, then those made from the seed.
pub fn cases(dice: &mut Dice, count: usize, forms: &[Vec<Letter>]) -> Vec<Case> {
    let by_hand: Vec<Vec<u8>> = vectors().into_iter().map(|(recording, _, _)| recording).collect();
    let of_vector = |recording: Vec<u8>| vec![Case::Replay { recording: recording.clone(), room: 64 }, Case::Walk { recording }];
    by_hand.into_iter().map(of_vector).chain(std::iter::repeat_with(|| of_drill(dice, forms))).take(count).flatten().collect()
}
