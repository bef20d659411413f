//! A second reading of document 01, written from the document alone and independent of the
//! proved engine: plain strings and vectors, no tables of numbers shared with it.
//! Here: letters, a word taken apart, verdict, admission, the tone's place, and the shown text.

#[derive(Clone, Copy, PartialEq, Eq)]
pub enum Mode {
    Telex,
    Vni,
}

#[derive(Clone, Copy, PartialEq, Eq, Debug)]
pub enum Shape {
    Plain,
    Circumflex,
    Breve,
    Horn,
    Stroke,
}

#[derive(Clone, Copy, PartialEq, Eq, Debug)]
pub struct Letter {
    pub base: char,
    pub shape: Shape,
    pub capital: bool,
}

/// Tones 0 to 5 of each vowel, small letters.
pub const VOWELS: [&str; 12] = [
    "aáàảãạ", "ăắằẳẵặ", "âấầẩẫậ", "eéèẻẽẹ", "êếềểễệ", "iíìỉĩị", "oóòỏõọ", "ôốồổỗộ", "ơớờởỡợ", "uúùủũụ", "ưứừửữự", "yýỳỷỹỵ",
];

const INITIALS: &str = "b c d đ g h k l m n p r s t v x ch gh gi kh ng nh ph qu th tr ngh";

const FINALS: &str = "c ch m n ng nh p t";

/// Nuclei, the finals that they take, and whether they stand open.
const ROWS: [(&str, &str, bool); 8] = [
    ("a oa", "c ch m n ng nh p t", true),
    ("e o ô u ư oe", "c m n ng p t", true),
    ("ă â oă uâ iê yê uô ươ", "c m n ng p t", false),
    ("i ê uê", "ch m n nh p t", true),
    ("ơ", "m n p t", true),
    ("y uy", "ch n nh p t", true),
    ("uyê", "n t", false),
    (
        "ai ao au ay âu ây eo êu ia iu oi ôi ơi ua ui ưa ưi ưu iêu yêu oai oay oeo uây uôi uya ươi ươu uyu uêu oao uơ",
        "",
        true,
    ),
];

pub fn plain_name(c: char) -> (char, Shape) {
    match c {
        'ă' => ('a', Shape::Breve),
        'â' => ('a', Shape::Circumflex),
        'ê' => ('e', Shape::Circumflex),
        'ô' => ('o', Shape::Circumflex),
        'ơ' => ('o', Shape::Horn),
        'ư' => ('u', Shape::Horn),
        'đ' => ('d', Shape::Stroke),
        c => (c, Shape::Plain),
    }
}

pub fn name(x: Letter) -> char {
    match (x.base, x.shape) {
        ('a', Shape::Breve) => 'ă',
        ('a', Shape::Circumflex) => 'â',
        ('e', Shape::Circumflex) => 'ê',
        ('o', Shape::Circumflex) => 'ô',
        ('o', Shape::Horn) => 'ơ',
        ('u', Shape::Horn) => 'ư',
        ('d', Shape::Stroke) => 'đ',
        (b, _) => b,
    }
}

fn spelling(letters: &[Letter]) -> String {
    letters.iter().map(|&x| name(x)).collect()
}

fn is_vowel(x: &Letter) -> bool {
    "aeiouy".contains(x.base)
}

fn listed(list: &str, word: &str) -> bool {
    list.split(' ').any(|w| w == word && !w.is_empty())
}

pub struct Parts {
    pub initial: usize,
    pub nucleus: usize,
    pub end: usize,
}

/// Where the initial, the nucleus and the final end.
pub fn apart(w: &[Letter]) -> Parts {
    let run = |from: usize, vowels: bool| w[from..].iter().position(|x| is_vowel(x) != vowels).map_or(w.len(), |n| from + n);
    let before = run(0, false);
    let nucleus = run(before, true);
    let end = run(nucleus, false);
    let lead = spelling(&w[..before]);
    let mut initial = before;
    if lead == "q" && nucleus > before && name(w[before]) == 'u' {
        initial += 1;
    }
    if lead == "g" && nucleus > before + 1 && w[before].base == 'i' {
        initial += 1;
    }
    Parts { initial, nucleus, end }
}

fn fits_first_vowel(initial: &str, v: char) -> bool {
    match initial {
        "c" | "ng" => !"eiy".contains(v),
        "g" => !"ey".contains(v),
        "k" => "eiy".contains(v),
        "gh" | "ngh" => "ei".contains(v),
        "gi" => !"iy".contains(v),
        "qu" => v != 'u',
        _ => true,
    }
}

fn stands_after(initial: &str, nucleus: &str) -> bool {
    let yes = !(nucleus == "yê" || nucleus == "yêu") || initial.is_empty() || initial == "qu";
    let two = nucleus.chars().count() >= 2;
    let with_o = "oôơ".contains(nucleus.chars().next().unwrap());
    let horned = nucleus != "uơ" || matches!(initial, "h" | "kh" | "th");
    yes && horned && !(initial == "qu" && two && with_o)
}

fn takes_final(initial: &str, nucleus: &str, finals: &str, open: bool, last: &str) -> bool {
    if last.is_empty() {
        return open;
    }
    listed(finals, last) || (initial == "gi" && nucleus == "ê" && last == "ng")
}

/// Checks 1 to 5 of the verdict: the first that holds, or 0.
fn first_checks(w: &[Letter], p: &Parts) -> usize {
    let initial = spelling(&w[..p.initial]);
    let nucleus = &w[p.initial..p.nucleus];
    let last = spelling(&w[p.nucleus..p.end]);
    if nucleus.is_empty() {
        1
    } else if !(initial.is_empty() || listed(INITIALS, &initial)) {
        2
    } else if p.end < w.len() {
        3
    } else if !fits_first_vowel(&initial, nucleus[0].base) {
        4
    } else if !(last.is_empty() || listed(FINALS, &last)) {
        5
    } else {
        0
    }
}

fn is_stop(last: &str) -> bool {
    matches!(last, "c" | "ch" | "p" | "t")
}

pub fn tone_fits(w: &[Letter], tone: usize) -> bool {
    let p = apart(w);
    tone == 1 || tone == 5 || !is_stop(&spelling(&w[p.nucleus..p.end]))
}

pub fn verdict(w: &[Letter], tone: usize) -> usize {
    let p = apart(w);
    let early = first_checks(w, &p);
    if early != 0 {
        return early;
    }
    let initial = spelling(&w[..p.initial]);
    let nucleus = spelling(&w[p.initial..p.nucleus]);
    let last = spelling(&w[p.nucleus..p.end]);
    let allowed = ROWS.iter().any(|&(nuclei, finals, open)| {
        listed(nuclei, &nucleus) && stands_after(&initial, &nucleus) && takes_final(&initial, &nucleus, finals, open, &last)
    });
    if !allowed {
        6
    } else if !tone_fits(w, tone) {
        7
    } else {
        0
    }
}

pub fn admitted(w: &[Letter]) -> bool {
    let p = apart(w);
    if first_checks(w, &p) != 0 {
        return false;
    }
    let initial = spelling(&w[..p.initial]);
    let nucleus = &w[p.initial..p.nucleus];
    let last = spelling(&w[p.nucleus..p.end]);
    ROWS.iter().any(|&(nuclei, finals, open)| {
        nuclei.split(' ').any(|z| {
            let letters: Vec<(char, Shape)> = z.chars().map(plain_name).collect();
            letters.len() == nucleus.len()
                && letters.iter().zip(nucleus).all(|(&(b, s), x)| x.base == b && (x.shape == Shape::Plain || x.shape == s))
                && stands_after(&initial, z)
                && (last.is_empty() || takes_final(&initial, z, finals, open, &last))
        })
    })
}

/// Is the word h, kh or th, a plain u and an o in any shape, and no more?
pub fn is_huo(w: &[Letter]) -> bool {
    let Some(from) = w.len().checked_sub(2) else {
        return false;
    };
    matches!(spelling(&w[..from]).as_str(), "h" | "kh" | "th") && name(w[from]) == 'u' && w[from + 1].base == 'o'
}

pub fn place(w: &[Letter], tone: usize) -> Option<usize> {
    let p = apart(w);
    let n = p.nucleus - p.initial;
    if tone == 0 || n == 0 {
        return None;
    }
    if n == 1 {
        return Some(p.initial);
    }
    if let Some(i) = w[p.initial..p.nucleus].iter().rposition(|x| x.shape != Shape::Plain) {
        return Some(p.initial + i);
    }
    Some(match n {
        3 => p.initial + 1,
        2 if p.nucleus < w.len() => p.initial + 1,
        _ => p.initial,
    })
}

/// The letter in its case with a tone on it.
fn sign(x: Letter, tone: usize) -> char {
    let small = name(x);
    let c = VOWELS
        .iter()
        .find(|row| row.starts_with(small))
        .map_or(small, |row| row.chars().nth(tone).unwrap());
    if x.capital {
        c.to_uppercase().next().unwrap()
    } else {
        c
    }
}

pub fn shown(w: &[Letter], tone: usize) -> String {
    let at = place(w, tone);
    w.iter().enumerate().map(|(i, &x)| sign(x, if Some(i) == at { tone } else { 0 })).collect()
}

/// Every valid syllable without a tone that needs none, in letters: initial, nucleus, final.
pub fn all_forms() -> Vec<Vec<Letter>> {
    let small = |s: &str| -> Vec<Letter> { s.chars().map(|c| { let (base, shape) = plain_name(c); Letter { base, shape, capital: false } }).collect() };
    let mut forms = vec![];
    for initial in std::iter::once("").chain(INITIALS.split(' ')) {
        for (nuclei, _, _) in ROWS {
            for nucleus in nuclei.split(' ') {
                for last in std::iter::once("").chain(FINALS.split(' ')) {
                    let w = small(&format!("{initial}{nucleus}{last}"));
                    if verdict(&w, 1) == 0 && !forms.contains(&w) {
                        forms.push(w);
                    }
                }
            }
        }
    }
    forms
}
