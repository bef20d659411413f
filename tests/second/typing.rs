//! Document 01, second reading: one key typed, and a list of keys; and which key made which letter.

use crate::syllable::{Letter, Mode, Shape, admitted, is_huo, tone_fits, verdict};

/// The places, among the keys and from 0, of the key that appended a letter and of the last key that shaped it.
pub struct Made {
    pub appended: usize,
    pub shaped: Option<usize>,
}

pub struct Word {
    pub mode: Mode,
    pub letters: Vec<Letter>,
    /// Of each letter.
    pub made: Vec<Made>,
    pub tone: usize,
    /// The place of the last key that set the tone.
    pub toned: Option<usize>,
    pub typed: usize,
    pub open: bool,
    pub acted: usize,
    pub undone: usize,
    pub appended: usize,
}

/// A refusal: its number and the number returned.
pub type Refused = (usize, usize);

impl Word {
    pub fn new(mode: Mode) -> Word {
        Word { mode, letters: vec![], made: vec![], tone: 0, toned: None, typed: 0, open: true, acted: 0, undone: 0, appended: 0 }
    }

    pub fn keeps(&self) -> bool {
        (self.acted == 0 && self.undone == 0)
            || !self.open
            || self.letters.first().map_or(false, |x| x.shape == Shape::Stroke)
            || verdict(&self.letters, self.tone) == 0
    }

    fn plain_letter(&mut self, key: u8) {
        let c = key as char;
        self.letters.push(Letter { base: c.to_ascii_lowercase(), shape: Shape::Plain, capital: c.is_ascii_uppercase() });
        self.made.push(Made { appended: self.typed, shaped: None });
    }

    fn append(&mut self, key: u8) {
        self.second_horn(key.to_ascii_lowercase() as char);
        self.plain_letter(key);
        self.appended += 1;
    }

    /// The one case in which an appended letter changes an earlier one: the u of an open huơ, khuơ or thuơ gets the horn too.
    fn second_horn(&mut self, letter: char) {
        let n = self.letters.len();
        if self.open && is_huo(&self.letters) && self.letters[n - 1].shape == Shape::Horn && "iucmnpt".contains(letter) {
            self.letters[n - 2].shape = Shape::Horn;
            self.made[n - 2].shaped = Some(self.typed);
        }
    }

    fn undo(&mut self, key: u8) {
        self.plain_letter(key);
        self.open = false;
        self.undone += 1;
    }

    /// A shape key that aims at these places: undone where all have it, acted where the letters with it are admitted; false where it does nothing.
    fn reshape(&mut self, at: &[usize], shape: Shape, key: u8) -> bool {
        if at.is_empty() {
            return false;
        }
        if at.iter().all(|&i| self.letters[i].shape == shape) {
            for &i in at {
                self.letters[i].shape = Shape::Plain;
                self.made[i].shaped = None;
            }
            self.undo(key);
            return true;
        }
        let mut next = self.letters.clone();
        for &i in at {
            next[i].shape = shape;
        }
        if !admitted(&next) {
            return false;
        }
        self.letters = next;
        for &i in at {
            self.made[i].shaped = Some(self.typed);
        }
        self.acted += 1;
        true
    }

    fn last_of(&self, wanted: &str) -> Vec<usize> {
        self.letters.iter().rposition(|x| wanted.contains(x.base)).into_iter().collect()
    }

    fn horn_target(&self) -> Vec<usize> {
        let w = &self.letters;
        if is_huo(w) {
            return vec![w.len() - 1];
        }
        let free = |i: usize| i == 0 || w[i - 1].base != 'q';
        for i in 0..w.len().saturating_sub(1) {
            if w[i].base == 'u' && w[i + 1].base == 'o' && free(i) {
                return vec![i, i + 1];
            }
        }
        (0..w.len()).find(|&i| "ou".contains(w[i].base) && free(i)).into_iter().collect()
    }

    fn tone_key(&mut self, tone: usize, key: u8) {
        if self.tone == tone {
            self.tone = 0;
            self.toned = None;
            self.undo(key);
        } else if admitted(&self.letters) && tone_fits(&self.letters, tone) {
            self.tone = tone;
            self.toned = Some(self.typed);
            self.acted += 1;
        } else {
            self.append(key);
        }
    }

    fn clear(&mut self, key: u8) {
        if self.tone == 0 {
            self.append(key);
        } else {
            self.tone = 0;
            self.toned = None;
            self.acted += 1;
        }
    }

    fn stroke(&mut self, key: u8) {
        let n = self.letters.len();
        let fits = n == 1 || admitted(&self.letters);
        match self.letters.first_mut() {
            Some(x) if x.base == 'd' && x.shape == Shape::Stroke => {
                x.shape = Shape::Plain;
                self.made[0].shaped = None;
                self.undo(key);
            }
            Some(x) if x.base == 'd' && fits => {
                x.shape = Shape::Stroke;
                self.made[0].shaped = Some(self.typed);
                self.acted += 1;
            }
            _ => self.append(key),
        }
    }

    pub fn press(&mut self, key: u8) {
        if !self.open {
            return self.append(key);
        }
        let k = (key as char).to_ascii_lowercase();
        let acted = match (self.mode, k) {
            (Mode::Telex, 's' | 'f' | 'r' | 'x' | 'j') => return self.tone_key("sfrxj".find(k).unwrap() + 1, key),
            (Mode::Vni, '1'..='5') => return self.tone_key(k as usize - '0' as usize, key),
            (Mode::Telex, 'z') | (Mode::Vni, '0') => return self.clear(key),
            (Mode::Telex, 'd') | (Mode::Vni, '9') => return self.stroke(key),
            (Mode::Telex, 'a' | 'e' | 'o') => {
                let at = self.last_of(&k.to_string());
                self.reshape(&at, Shape::Circumflex, key)
            }
            (Mode::Vni, '6') => {
                let at = self.last_of("aeo");
                self.reshape(&at, Shape::Circumflex, key)
            }
            (Mode::Vni, '7') => {
                let at = self.horn_target();
                self.reshape(&at, Shape::Horn, key)
            }
            (Mode::Vni, '8') => {
                let at = self.last_of("a");
                self.reshape(&at, Shape::Breve, key)
            }
            (Mode::Telex, 'w') => {
                let horn = self.horn_target();
                self.reshape(&horn, Shape::Horn, key) || {
                    let breve = self.last_of("a");
                    self.reshape(&breve, Shape::Breve, key)
                }
            }
            _ => false,
        };
        if !acted {
            self.append(key);
        }
    }
}

pub fn allowed(mode: Mode, key: u8) -> bool {
    key.is_ascii_alphabetic() || (mode == Mode::Vni && key.is_ascii_digit())
}

pub fn type_all(mode: Mode, keys: &[u8]) -> Result<Word, Refused> {
    if keys.len() > 32 {
        return Err((2, 32));
    }
    if let Some(i) = keys.iter().position(|&k| !allowed(mode, k)) {
        return Err((3, i));
    }
    let mut w = Word::new(mode);
    for &k in keys {
        w.press(k);
        w.typed += 1;
    }
    Ok(w)
}
