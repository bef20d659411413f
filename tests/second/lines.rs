//! Document 01, second reading: the speller, and the lines of the programs.

use crate::syllable::{Letter, Mode, Shape, VOWELS, name, place, plain_name, shown, verdict};
use crate::typing::{Refused, Word, type_all};

/// A text read letter by letter; refusal 6 with the place of the first byte where no letter of the alphabet starts.
fn read(text: &[u8]) -> Result<Vec<(Letter, usize)>, Refused> {
    let mut found = vec![];
    let mut at = 0;
    'next: while at < text.len() {
        for len in 1..=3 {
            let Some(bytes) = text.get(at..at + len) else { break };
            let Ok(s) = std::str::from_utf8(bytes) else { continue };
            let mut chars = s.chars();
            let (Some(c), None) = (chars.next(), chars.next()) else { break };
            let small = c.to_lowercase().next().unwrap();
            let capital = c != small;
            // a capital of another alphabet, as the dotted İ, has a small letter of ours and is none of ours
            if capital && !small.to_uppercase().eq([c]) {
                break;
            }
            if let Some(row) = VOWELS.iter().find(|row| row.contains(small)) {
                let (base, shape) = plain_name(row.chars().next().unwrap());
                let tone = row.chars().position(|x| x == small).unwrap();
                found.push((Letter { base, shape, capital }, tone));
            } else if small == 'đ' || small.is_ascii_alphabetic() && c.is_ascii() {
                let (base, shape) = plain_name(small);
                found.push((Letter { base, shape, capital }, 0));
            } else {
                break;
            }
            at += len;
            continue 'next;
        }
        return Err((6, at));
    }
    Ok(found)
}

fn shape_key(mode: Mode, x: Letter) -> char {
    match (mode, x.shape) {
        (Mode::Telex, Shape::Circumflex) => x.base,
        (Mode::Telex, Shape::Stroke) => 'd',
        (Mode::Telex, _) => 'w',
        (Mode::Vni, Shape::Circumflex) => '6',
        (Mode::Vni, Shape::Horn) => '7',
        (Mode::Vni, Shape::Breve) => '8',
        (Mode::Vni, _) => '9',
    }
}

pub fn standard_keys(mode: Mode, w: &[Letter], tone: usize) -> String {
    let mut keys = String::new();
    for (i, &x) in w.iter().enumerate() {
        keys.push(if x.capital { x.base.to_ascii_uppercase() } else { x.base });
        let waits = name(x) == 'ư' && w.get(i + 1).map_or(false, |&z| name(z) == 'ơ');
        if x.shape != Shape::Plain && !waits {
            keys.push(shape_key(mode, x));
        }
    }
    if tone != 0 {
        keys.push(match mode {
            Mode::Telex => "sfrxj".as_bytes()[tone - 1] as char,
            Mode::Vni => char::from_digit(tone as u32, 10).unwrap(),
        });
    }
    keys
}

pub fn spell(mode: Mode, text: &[u8]) -> Result<String, Refused> {
    if text.len() > 96 {
        return Err((2, 96));
    }
    let signs = read(text)?;
    let letters: Vec<Letter> = signs.iter().map(|s| s.0).collect();
    let toned: Vec<usize> = (0..signs.len()).filter(|&i| signs[i].1 != 0).collect();
    if toned.len() >= 2 {
        return Err((7, 8));
    }
    let tone = toned.first().map_or(0, |&i| signs[i].1);
    let v = verdict(&letters, tone);
    if v != 0 {
        return Err((7, v));
    }
    if place(&letters, tone) != toned.first().copied() {
        return Err((7, 9));
    }
    Ok(standard_keys(mode, &letters, tone))
}

fn mode_of(line: &[u8]) -> Option<(Mode, &[u8])> {
    match line {
        [b'T', b' ', keys @ ..] => Some((Mode::Telex, keys)),
        [b'V', b' ', keys @ ..] => Some((Mode::Vni, keys)),
        _ => None,
    }
}

fn refused(r: Refused) -> Vec<u8> {
    format!("! {} {}", r.0, r.1).into_bytes()
}

/// The word that a line types.
fn word_of(line: &[u8]) -> Result<Word, Refused> {
    let (mode, keys) = mode_of(line).ok_or((1, 0))?;
    type_all(mode, keys)
}

/// Shown text, what commit hands back, verdict, tone, place, decision.
fn six_columns(w: &Word, line: &[u8]) -> String {
    let text = shown(&w.letters, w.tone);
    let raw = String::from_utf8(line[2..].to_vec()).unwrap();
    let keeps = w.keeps();
    let or_hyphen = |s: &str| if s.is_empty() { "-".to_string() } else { s.to_string() };
    format!(
        "{} {} {} {} {} {}",
        or_hyphen(&text),
        or_hyphen(if keeps { &text } else { &raw }),
        verdict(&w.letters, w.tone),
        w.tone,
        place(&w.letters, w.tone).map_or("-".to_string(), |n| n.to_string()),
        if keeps { "K" } else { "R" }
    )
}

/// The answer of the drill to one line, without its newline.
pub fn drill_line(line: &[u8]) -> Vec<u8> {
    word_of(line).map_or_else(refused, |w| six_columns(&w, line).into_bytes())
}

/// The answer of the drill with the places of the keys: two columns more, for each letter the place of the key that appended it
/// and of the one that shaped it, and the place of the one that set the tone; a hyphen for none.
pub fn keys_line(line: &[u8]) -> Vec<u8> {
    let place = |p: Option<usize>| p.map_or("-".to_string(), |n| n.to_string());
    word_of(line).map_or_else(refused, |w| {
        let letters: Vec<String> = w.made.iter().map(|m| format!("{}/{}", m.appended, place(m.shaped))).collect();
        let letters = if letters.is_empty() { "-".to_string() } else { letters.join(",") };
        format!("{} {} {}", six_columns(&w, line), letters, place(w.toned)).into_bytes()
    })
}

/// The answer of the cards program to one line, without its newline: the drill's six columns, the open mark, the number of
/// letters, and how many keys acted, undid and were appended.
pub fn card_line(line: &[u8]) -> Vec<u8> {
    word_of(line).map_or_else(refused, |w| {
        let mark = if w.open { "open" } else { "closed" };
        format!("{} {} {} {} {} {}", six_columns(&w, line), mark, w.letters.len(), w.acted, w.undone, w.appended).into_bytes()
    })
}

/// The answer of the speller program to one line, without its newline.
pub fn spell_line(line: &[u8]) -> Vec<u8> {
    let Some((mode, text)) = mode_of(line) else { return refused((1, 0)) };
    spell(mode, text).map_or_else(refused, String::into_bytes)
}
