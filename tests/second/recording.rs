//! Document 02, second reading of W-204: a drill recorded as numbers; written, read press by press, and replayed.
//! A press is one number, as it is lent to the library: the key, and 256 times the milliseconds since the last key.

use crate::syllable::{Mode, shown};
use crate::typing::{Refused, allowed, type_all};

const SPACE: u64 = 32;

/// All milliseconds of a drill together, at most; and the largest number that is written.
pub const MOST: u64 = (1 << 32) - 1;

/// A number in groups of seven bits, low group first, the top bit set where more follow.
pub fn written(mut n: u64) -> Vec<u8> {
    let mut groups = vec![];
    while n >= 128 {
        groups.push(128 + (n % 128) as u8);
        n /= 128;
    }
    groups.push(n as u8);
    groups
}

/// The number that starts at a place, and where it ends; else refusal 10 with the place: cut short, too long, not shortest or too large.
pub fn number_at(recording: &[u8], at: usize) -> Result<(u64, usize), Refused> {
    let refused = (10, at);
    let rest = recording.get(at..).unwrap_or(&[]);
    let last = rest.iter().position(|&group| group < 128).ok_or(refused)?;
    if last >= 5 || (last > 0 && rest[last] == 0) {
        return Err(refused);
    }
    let number = rest[..=last].iter().rev().fold(0, |high, &group| 128 * high + u64::from(group % 128));
    if number > MOST { Err(refused) } else { Ok((number, at + last + 1)) }
}

/// A mode that does not exist allows the letters alone, and these are Telex's keys.
fn mode_of(mode: u8) -> Mode {
    if mode == 1 { Mode::Vni } else { Mode::Telex }
}

/// How far a drill has come: the keys in the word that has begun, and all milliseconds.
#[derive(Clone, Copy)]
pub struct Progress {
    pub in_word: usize,
    pub milliseconds: u64,
}

impl Progress {
    pub fn new() -> Progress {
        Progress { in_word: 0, milliseconds: 0 }
    }

    /// One more press, or the number of its refusal. Any progress is taken: a word may be more than full, and the sum more than a number holds.
    fn press(&mut self, mode: u8, time: u64, key: u64) -> Result<(), usize> {
        if key != SPACE && self.in_word >= 32 {
            return Err(2);
        }
        if key != SPACE && (key > 255 || !allowed(mode_of(mode), key as u8)) {
            return Err(3);
        }
        let milliseconds = self.milliseconds.saturating_add(time);
        if milliseconds > MOST {
            return Err(11);
        }
        *self = Progress { in_word: if key == SPACE { 0 } else { self.in_word + 1 }, milliseconds };
        Ok(())
    }
}

fn in_room(bytes: Vec<u8>, room: usize) -> Result<Vec<u8>, Refused> {
    if bytes.len() > room { Err((4, bytes.len())) } else { Ok(bytes) }
}

/// The recording of a drill, in an output with room for so many bytes.
pub fn write(mode: u8, presses: &[u64], room: usize) -> Result<Vec<u8>, Refused> {
    if mode > 1 {
        return Err((1, 0));
    }
    let mut bytes = written(u64::from(mode));
    let mut progress = Progress::new();
    for (i, press) in presses.iter().enumerate() {
        let (time, key) = (press / 256, press % 256);
        progress.press(mode, time, key).map_err(|number| (number, i))?;
        bytes.extend(written(time));
        bytes.extend(written(key));
    }
    in_room(bytes, room)
}

/// The mode of a recording, and the place of its first step.
pub fn begin(recording: &[u8]) -> Result<(u8, usize), Refused> {
    let (mode, at) = number_at(recording, 0)?;
    if mode > 1 { Err((1, 0)) } else { Ok((mode as u8, at)) }
}

/// The press that starts at a place, or none at the recording's end. Place and progress move on with a press, and else stay.
pub fn next(recording: &[u8], mode: u8, at: &mut usize, progress: &mut Progress) -> Result<Option<u64>, Refused> {
    if *at >= recording.len() {
        return Ok(None);
    }
    let (time, key_at) = number_at(recording, *at)?;
    let (key, end) = number_at(recording, key_at)?;
    progress.press(mode, time, key).map_err(|number| (number, if number == 11 { *at } else { key_at }))?;
    *at = end;
    Ok(Some(key + 256 * time))
}

/// The mode and the presses of a whole recording.
pub fn read(recording: &[u8]) -> Result<(u8, Vec<u64>), Refused> {
    let (mode, mut at) = begin(recording)?;
    let mut progress = Progress::new();
    let mut presses = vec![];
    while let Some(press) = next(recording, mode, &mut at, &mut progress)? {
        presses.push(press);
    }
    Ok((mode, presses))
}

/// Words, kept, restored; keys acted, undone, appended; milliseconds.
pub type Summary = [u64; 7];

/// What the words of a recording commit, each with a newline, in an output with room for so many bytes.
pub fn replay(recording: &[u8], room: usize) -> Result<(Vec<u8>, Summary), Refused> {
    let (mode, presses) = read(recording)?;
    let keys: Vec<u8> = presses.iter().map(|press| (press % 256) as u8).collect();
    let mut words: Vec<&[u8]> = keys.split(|&key| u64::from(key) == SPACE).collect();
    // behind the last space a word stands only if it has keys
    if words.last().map_or(false, |keys| keys.is_empty()) {
        words.pop();
    }
    let mut bytes = vec![];
    let mut summary = [0; 7];
    for keys in words {
        let word = type_all(mode_of(mode), keys)?;
        let keeps = word.keeps();
        if keeps {
            bytes.extend(shown(&word.letters, word.tone).bytes());
        } else {
            bytes.extend(keys);
        }
        bytes.push(b'\n');
        let counts = [1, keeps as usize, !keeps as usize, word.acted, word.undone, word.appended];
        for (sum, &count) in summary.iter_mut().zip(&counts) {
            *sum += count as u64;
        }
    }
    summary[6] = presses.iter().map(|press| press / 256).sum();
    Ok((in_room(bytes, room)?, summary))
}
