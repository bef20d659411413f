//! Makes drill lines, speller lines or recorded drills from a seed, runs a program on them, and compares every
//! byte of its answers with what the second reading of documents 01 and 02 (the modules beside this file) says; or answers
//! the lines of standard input itself, with the columns of the program cards.
//!
//!     second drill PROGRAM LINES SEED
//!     second keys PROGRAM LINES SEED     (the drill with --keys)
//!     second spell PROGRAM LINES SEED
//!     second recordings COUNT SEED PROGRAM [ARG...]     (a program that answers as tests/box/recordings.c does)
//!     second cards < LINES

mod cases;
mod lines;
mod recording;
mod syllable;
mod typing;

use syllable::{Letter, Mode};
use std::io::{Read, Write};
use std::process::{Command, ExitCode, Stdio};

/// Marsaglia's xorshift: the same lines from the same seed on every machine.
struct Dice(u64);

impl Dice {
    fn roll(&mut self, n: usize) -> usize {
        self.0 ^= self.0 << 13;
        self.0 ^= self.0 >> 7;
        self.0 ^= self.0 << 17;
        (self.0 >> 11) as usize % n
    }

    fn of<'a, T>(&mut self, all: &'a [T]) -> &'a T {
        &all[self.roll(all.len())]
    }
}

fn in_some_case(dice: &mut Dice, key: u8) -> u8 {
    if dice.roll(8) == 0 { key.to_ascii_uppercase() } else { key }
}

/// A valid syllable with a tone that fits it, in some mix of capitals.
fn syllable(dice: &mut Dice, forms: &[Vec<Letter>]) -> (Vec<Letter>, usize) {
    let mut w = dice.of(forms).clone();
    for x in &mut w {
        x.capital = dice.roll(6) == 0;
    }
    loop {
        let tone = dice.roll(6);
        if syllable::verdict(&w, tone) == 0 {
            return (w, tone);
        }
    }
}

/// Its bare letters, and its stroke, shape and tone keys.
fn bare_and_marks(mode: Mode, w: &[Letter], tone: usize) -> (Vec<u8>, Vec<u8>) {
    let bare: Vec<u8> = w.iter().map(|x| if x.capital { x.base.to_ascii_uppercase() } else { x.base } as u8).collect();
    let mut letters = bare.iter().peekable();
    let mut marks = vec![];
    for key in lines::standard_keys(mode, w, tone).bytes() {
        if letters.peek() == Some(&&key) {
            letters.next();
        } else {
            marks.push(key);
        }
    }
    (bare, marks)
}

fn shuffle(dice: &mut Dice, keys: &mut [u8]) {
    for i in (1..keys.len()).rev() {
        keys.swap(i, dice.roll(i + 1));
    }
}

/// One byte taken out, put in, doubled or exchanged for another.
fn slip(dice: &mut Dice, keys: &mut Vec<u8>, other: &[u8]) {
    let at = dice.roll(keys.len() + 1);
    let key = *dice.of(other);
    match dice.roll(4) {
        0 => keys.insert(at, key),
        _ if at == keys.len() => keys.push(key),
        1 => drop(keys.remove(at)),
        2 => keys.insert(at, keys[at]),
        _ => keys[at] = key,
    }
}

fn some_bytes(dice: &mut Dice, most: usize, from: &[u8]) -> Vec<u8> {
    (0..dice.roll(most + 1)).map(|_| *dice.of(from)).collect()
}

fn any_bytes(dice: &mut Dice, most: usize) -> Vec<u8> {
    (0..dice.roll(most + 1)).map(|_| dice.roll(256) as u8).filter(|&b| b != b'\n').collect()
}

/// Words written down by hand, around q, u, o and yê and around huơ: the forms are made by the rule that judges, so a rule
/// that is wrong about these would not make them. As keys in each mode, and as shown.
struct Written {
    telex: &'static str,
    vni: &'static str,
    shown: &'static str,
    /// What may follow the keys.
    ends: &'static [&'static str],
}

const WRITTEN: [Written; 2] = [
    // with a shaped u that no keys give after q
    Written {
        telex: "q qu qw quw qwu quwo quow quwow qwuo quoww quuw quwu quuow quuwo quwuo quo quoo quoow quoi quoai quowi quooi \
            qua quaw quwa quaa quaaw quau quay quaay que quew quee queew queo quy quyw quye quyee quyew quwyee quyeeu quyeu quyu quya quie quiee quiw \
            yee yeeu uyee uyw tyee tuyee hyeeu gyee giee giwo qyee qoa qowu uqw uow uw",
        vni: "q qu q7 qu7 q7u qu7o quo7 qu7o7 q7uo quo77 quu7 qu7u quuo7 quu7o qu7uo quo quo6 quo67 quo76 quoi quoai quo7i quo6i \
            qua qua8 qua7 qu8a qua6 qua68 quau quay qua6y que que7 que6 que67 queo quy quy7 quye quye6 quy6e quye7 qu6ye qu7ye6 quye6u quyeu quyu quya \
            quie quie6 qui7 ye6 ye6u uye6 uy7 tye6 tuye6 hye6u gye6 gie6 gi7o qye6 qoa qo7u uq7 uo7 u7",
        shown: "q qu qư qừ qưa qứa qưu qưi qươ qướ qườn qương qựơ quư quứ quươ quưa quướ quườn quo quó quô quố quốc quơ quờ quởn \
            quơi quôi quoa quoai quă quắn quâ quầy que quê quế quên quy quỳ quýt quỳnh quyu quya quyê quyế quyên quyền quyến quýên qúyên quyén quyết quyêt \
            quyếch quyềng quyêu quyếu yê yên yêu yếu uyên tyên tyêu tuyên tuyến huyền gyên giyên qyên qiên quiên quiến qúa qứ qụ",
        ends: &["", "", "n", "t", "ng", "nh", "c", "u"],
    },
    Written {
        telex: "huo huow huoww huowww huwow huwo huoow huooww huowo huowoo huwoo huowr huwowr thuo thuow thuowr thuoww thuoow thuorw thurow thuwow \
            khuo khuow khuoww khuoow huowng huowngw huowcs huowtj huowi huowu huowm huown huowp huowh huowd huowa huowe huowy huowk huowwn huowwc \
            thuowng thuowngf khuowu khuowi hwuo hwuow hwuon hwoun huonw huowiw huowuw huownw huuow hhuow huoi huoiw huou huouw huong huongw \
            uow uown luow luown luowng chuow nhuow phuow quow nghuow ghuow dhuow ddhuow shuow thhuow tuow kuow khhuow thuowz huowz huowsz huosw",
        vni: "huo huo7 huo77 huo777 hu7o7 hu7o huo67 huo677 huo7o huo76 hu7o6 huo73 hu7o73 thuo thuo7 thuo73 thuo77 thuo67 thuo37 thu3o7 thu7o7 \
            khuo khuo7 khuo77 khuo67 huo7ng huo7ng7 huo7c1 huo7t5 huo7i huo7u huo7m huo7n huo7p huo7h huo7d huo7a huo7e huo7y huo7k huo77n huo77c \
            thuo7ng thuo7ng2 khuo7u khuo7i h7uo h7uo7 h7uon huon7 huo7i7 huo7u7 huo7n7 huuo7 hhuo7 huoi huoi7 huou huou7 huong huong7 huo78 huo79 \
            uo7 uo7n luo7 luo7n luo7ng chuo7 nhuo7 phuo7 quo7 nghuo7 ghuo7 dhuo7 d9huo7 shuo7 thhuo7 tuo7 kuo7 khhuo7 thuo70 huo70 huo710 huo17",
        shown: "huơ huớ huờ huở huỡ huợ thuơ thuở khuơ khuở hươ hướ thưở thưỡ hưo húơ thủơ huơn huơng huơc huớc huơi huơu hương hươu hươi hước thường \
            uơ uở luơ luở chuơ nhuơ phuơ quơ quờ tuơ kuơ ghuơ nghuơ đuơ huô huố huo húo thuôn thuốn thuơh huơa",
        ends: &["", "", "i", "u", "c", "m", "n", "p", "t", "ng", "h", "a", "k"],
    },
];

fn words_of<'a>(dice: &mut Dice, words: &'a str) -> &'a str {
    *dice.of(&words.split_whitespace().collect::<Vec<_>>())
}

fn written_keys(dice: &mut Dice, mode: Mode) -> Vec<u8> {
    let group = dice.of(&WRITTEN);
    let (words, marks): (&str, &[u8]) = match mode {
        Mode::Telex => (group.telex, b"sfrxjzweao"),
        Mode::Vni => (group.vni, b"0123456789"),
    };
    let mut keys = words_of(dice, words).as_bytes().to_vec();
    keys.extend(dice.of(group.ends).bytes());
    if dice.roll(2) == 0 {
        let at = dice.roll(keys.len() + 1);
        keys.insert(at, *dice.of(marks));
    }
    keys.into_iter().map(|key| in_some_case(dice, key)).collect()
}

fn written_text(dice: &mut Dice) -> Vec<u8> {
    let group = dice.of(&WRITTEN);
    let word = words_of(dice, group.shown);
    let in_case: String = word.chars().flat_map(|c| if dice.roll(8) == 0 { c.to_uppercase().collect::<Vec<_>>() } else { vec![c] }).collect();
    in_case.into_bytes()
}

const KEYS: &[u8] = b"aeiouyaeiouydgqhnctpmbklrsvxwsfrxjzADEOUW0123456789";

fn drill_keys(dice: &mut Dice, mode: Mode, forms: &[Vec<Letter>]) -> Vec<u8> {
    let (w, tone) = syllable(dice, forms);
    let (mut keys, mut marks) = bare_and_marks(mode, &w, tone);
    match dice.roll(11) {
        // the bare letters, then the marks in any order and case
        0 | 1 => {
            shuffle(dice, &mut marks);
            for key in marks {
                let key = in_some_case(dice, key);
                keys.push(key);
            }
        }
        // the marks anywhere
        2 | 3 => {
            for key in marks {
                let at = dice.roll(keys.len() + 1);
                keys.insert(at, key);
            }
        }
        4 => keys = lines::standard_keys(mode, &w, tone).into_bytes(),
        // near misses
        5 | 6 => {
            keys.extend(marks);
            for _ in 0..1 + dice.roll(2) {
                slip(dice, &mut keys, KEYS);
            }
        }
        7 | 8 => keys = some_bytes(dice, 10, KEYS),
        9 => keys = written_keys(dice, mode),
        _ => {
            keys = match dice.roll(4) {
                0 => any_bytes(dice, 40),
                1 => some_bytes(dice, 40, KEYS),
                2 => vec![*dice.of(KEYS); 30 + dice.roll(5)],
                _ => some_bytes(dice, 3000, KEYS),
            }
        }
    }
    keys
}

fn spell_text(dice: &mut Dice, forms: &[Vec<Letter>]) -> Vec<u8> {
    let (w, tone) = syllable(dice, forms);
    let text = syllable::shown(&w, tone);
    let mut bytes = text.clone().into_bytes();
    match dice.roll(11) {
        0..=3 => {}
        // the tone on another letter, or a second one
        4 | 5 => {
            let letters: Vec<char> = text.chars().collect();
            let mut other = letters.clone();
            let at = dice.roll(letters.len());
            other[at] = *dice.of(&"áàảãạếệốộơờúưựýaeiouyđĐÁ".chars().collect::<Vec<_>>());
            bytes = other.into_iter().collect::<String>().into_bytes();
        }
        // cut, doubled, foreign or random bytes
        6 | 7 => slip(dice, &mut bytes, &[0xC3, 0xE1, 0xBB, 0x80, 0xC0, 0xF0, b'a', b'1', b' ', 0xBF, 0xC4, 0x91]),
        8 => bytes = syllable::shown(&dice.of(forms).clone(), dice.roll(6)).repeat(1 + dice.roll(40)).into_bytes(),
        9 => bytes = written_text(dice),
        _ => bytes = any_bytes(dice, 110),
    }
    bytes
}

fn line(dice: &mut Dice, spell: bool, forms: &[Vec<Letter>]) -> Vec<u8> {
    if dice.roll(60) == 0 {
        let odd: [&[u8]; 9] = [b"", b"T", b"V", b"t a", b"T\ta", b"X a", b" T a", b"TT a", b"T "];
        return dice.of(&odd).to_vec();
    }
    let mode = *dice.of(&[Mode::Telex, Mode::Vni]);
    let mut line = if mode == Mode::Telex { b"T ".to_vec() } else { b"V ".to_vec() };
    line.extend(if spell { spell_text(dice, forms) } else { drill_keys(dice, mode, forms) });
    line
}

/// Each word that is written down, once in each mode as it stands: these lines come first, from every seed.
fn written_lines(spell: bool) -> Vec<Vec<u8>> {
    let in_mode = |mode: &str, words: &str| words.split_whitespace().map(|w| format!("{mode} {w}").into_bytes()).collect::<Vec<_>>();
    WRITTEN.iter().flat_map(|g| if spell { [in_mode("T", g.shown), in_mode("V", g.shown)] } else { [in_mode("T", g.telex), in_mode("V", g.vni)] }).flatten().collect()
}

/// What a run compares: the program's arguments, its first line, and the answer to a line.
struct Compared {
    arguments: &'static [&'static str],
    header: &'static [u8],
    answer: fn(&[u8]) -> Vec<u8>,
}

fn compared(what: &str) -> Compared {
    match what {
        "drill" => Compared { arguments: &[], header: b"shown commit verdict tone place decision\n", answer: lines::drill_line },
        "keys" => Compared { arguments: &["--keys"], header: b"shown commit verdict tone place decision letters tonekey\n", answer: lines::keys_line },
        _ => Compared { arguments: &[], header: b"", answer: lines::spell_line },
    }
}

fn answers_of(program: &str, arguments: &[&str], input: Vec<u8>) -> std::io::Result<Vec<u8>> {
    let mut child = Command::new(program).args(arguments).stdin(Stdio::piped()).stdout(Stdio::piped()).spawn()?;
    let mut to = child.stdin.take().unwrap();
    let writer = std::thread::spawn(move || to.write_all(&input));
    let mut output = vec![];
    child.stdout.take().unwrap().read_to_end(&mut output)?;
    writer.join().unwrap()?;
    let status = child.wait()?;
    if !status.success() {
        return Err(std::io::Error::other(format!("ended with {status}")));
    }
    Ok(output)
}

/// Each line of standard input answered; a last line without a newline counts if it is not empty.
fn answer_cards() -> std::io::Result<()> {
    let mut input = vec![];
    std::io::stdin().read_to_end(&mut input)?;
    let mut answers = vec![];
    for line in input.split_inclusive(|&b| b == b'\n') {
        answers.extend(lines::card_line(line.strip_suffix(b"\n").unwrap_or(line)));
        answers.push(b'\n');
    }
    std::io::stdout().write_all(&answers)
}

/// The program's answers, a line each, against those expected; the first ten that differ are shown. How many differ, and how many there are too many.
fn compare(asked: impl Iterator<Item = (Vec<u8>, Vec<u8>)>, answers: &[u8]) -> (usize, usize) {
    let mut answers = answers.split_inclusive(|&b| b == b'\n');
    let mut wrong = 0;
    for (line, mut expected) in asked {
        expected.push(b'\n');
        let got = answers.next().unwrap_or(b"");
        if got != expected {
            wrong += 1;
            if wrong <= 10 {
                let show = |b: &[u8]| String::from_utf8_lossy(b).trim_end().to_string();
                eprintln!("second: {:?}: expected {:?}, got {:?}", show(&line), show(&expected), show(got));
            }
        }
    }
    (wrong, answers.count())
}

fn dice_of(seed: &str) -> Dice {
    let seed: u64 = seed.parse().expect("a seed");
    Dice(seed.wrapping_mul(0x9E37_79B9_7F4A_7C15) | 1)
}

fn compare_lines(what: &str, program: &str, count: &str, seed: &str) -> Result<(), String> {
    let compared = compared(what);
    let spell = what == "spell";
    let count: usize = count.parse().expect("a number of lines");
    let forms = syllable::all_forms();
    let mut dice = dice_of(seed);
    let lines: Vec<Vec<u8>> = written_lines(spell).into_iter().chain(std::iter::repeat_with(|| line(&mut dice, spell, &forms))).take(count).collect();
    let mut input = lines.join(&b'\n');
    input.push(b'\n');
    let output = answers_of(program, compared.arguments, input).map_err(|e| format!("{program}: {e}"))?;
    let answers = output.strip_prefix(compared.header).ok_or("the header is missing")?;
    let (wrong, more) = compare(lines.iter().map(|line| (line.clone(), (compared.answer)(line))), answers);
    if wrong + more != 0 {
        return Err(format!("{wrong} of {count} {what} lines differ, {more} answers too many (seed {seed})"));
    }
    println!("second: {count} {what} lines, every byte of the answers as expected (seed {seed})");
    Ok(())
}

fn compare_recordings(count: &str, seed: &str, program: &str, arguments: &[&str]) -> Result<(), String> {
    let count: usize = count.parse().expect("a number of recordings");
    for (recording, should, is) in cases::vectors() {
        if is != should {
            return Err(format!("the recording {recording:02x?} of tests/vectors: expected {should:?}, the second reading gives {is:?}"));
        }
    }
    let cases = cases::cases(&mut dice_of(seed), count, &syllable::all_forms());
    if let Some(case) = cases.iter().find(|case| !case.goes_back()) {
        return Err(format!("not the same there and back: {}", case.line()));
    }
    let input: String = cases.iter().map(|case| case.line() + "\n").collect();
    let answers = answers_of(program, arguments, input.into_bytes()).map_err(|e| format!("{program}: {e}"))?;
    let (wrong, more) = compare(cases.iter().map(|case| (case.line().into_bytes(), case.answer().into_bytes())), &answers);
    if wrong + more != 0 {
        return Err(format!("{wrong} of {} cases of {count} recordings differ, {more} answers too many (seed {seed})", cases.len()));
    }
    println!("second: {} cases of {count} recordings, every byte of the answers as expected (seed {seed})", cases.len());
    Ok(())
}

fn main() -> ExitCode {
    let args: Vec<String> = std::env::args().skip(1).collect();
    let args: Vec<&str> = args.iter().map(String::as_str).collect();
    let done = match args[..] {
        ["cards"] => answer_cards().map_err(|e| e.to_string()),
        ["recordings", count, seed, program, ref arguments @ ..] => compare_recordings(count, seed, program, arguments),
        [what @ ("drill" | "keys" | "spell"), program, count, seed] => compare_lines(what, program, count, seed),
        _ => {
            eprintln!("usage: second drill|keys|spell PROGRAM LINES SEED, or: second recordings COUNT SEED PROGRAM [ARG...], or: second cards < LINES");
            return ExitCode::from(2);
        }
    };
    match done {
        Ok(()) => ExitCode::SUCCESS,
        Err(e) => {
            eprintln!("second: {e}");
            ExitCode::FAILURE
        }
    }
}
