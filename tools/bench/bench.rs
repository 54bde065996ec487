// Measures the library's scans against Rust's own on the same texts, in one run. See README.md beside it.
use std::hint::black_box;
use std::time::{Duration, Instant};

unsafe extern "C" {
    fn fazdrigon_valid_up_to(bytes: *const u8, len: usize) -> usize;
    fn fazdrigon_find_bytes(bytes: *const u8, len: usize, tag: *const u8, tag_len: usize) -> usize;
    fn fazdrigon_find_utf8(bytes: *const u8, len: usize, tag: *const u8, tag_len: usize) -> usize;
    fn fazdrigon_position_bytes(bytes: *const u8, len: usize) -> usize;
    fn fazdrigon_position_utf8(bytes: *const u8, len: usize) -> usize;
}

const SIZE: usize = 1 << 20;
const ROUNDS: usize = 41;
const TURNS: usize = 4;

// xorshift, so that every run has the same texts
struct Draws(u32);

impl Draws {
    fn below(&mut self, n: usize) -> usize {
        self.0 ^= self.0 << 13;
        self.0 ^= self.0 >> 17;
        self.0 ^= self.0 << 5;
        self.0 as usize % n
    }

    fn word(&mut self, letters: &[char]) -> String {
        let len = 2 + self.below(8);
        let mut word: String = (0..len).map(|_| letters[self.below(letters.len())]).collect();
        word.push(' ');
        word
    }
}

// Words to just below the size, then spaces.
fn fill(mut next: impl FnMut() -> String) -> Vec<u8> {
    let mut text = Vec::with_capacity(SIZE);
    loop {
        let word = next();
        if text.len() + word.len() > SIZE {
            text.resize(SIZE, b' ');
            return text;
        }
        text.extend_from_slice(word.as_bytes());
    }
}

fn letters(from: u32, count: u32) -> Vec<char> {
    (from..from + count).filter_map(char::from_u32).collect()
}

fn texts() -> Vec<(&'static str, Vec<u8>)> {
    let latin = letters('a' as u32, 26);
    let mut french = latin.repeat(3);
    french.extend("éèàçùêî".chars());
    let russian = letters(0x430, 32);
    let chinese = letters(0x4E00, 3000);
    let emoji = letters(0x1F300, 200);
    let mut d = Draws(1);
    let ascii = fill(|| d.word(&latin));
    let mut d = Draws(2);
    let mostly = fill(|| d.word(&french));
    let mut d = Draws(3);
    let two = fill(|| d.word(&russian));
    let mut d = Draws(4);
    let three = fill(|| d.word(&chinese));
    let mut d = Draws(5);
    let mixed = fill(|| {
        let of = d.below(5);
        d.word([&latin, &french, &russian, &chinese, &emoji][of])
    });
    vec![("ASCII", ascii), ("mostly ASCII", mostly), ("2 bytes", two), ("3 bytes", three), ("mixed", mixed)]
}

fn time(f: &mut dyn FnMut() -> usize) -> (Duration, usize) {
    let start = Instant::now();
    let mut sum = 0usize;
    for _ in 0..TURNS {
        sum = sum.wrapping_add(f());
    }
    (start.elapsed(), sum)
}

// Interleaved; the least time of each, and the spread of the ratio between its quartiles.
fn compare(name: &str, text: &str, ours: &mut dyn FnMut() -> usize, rust: &mut dyn FnMut() -> usize) {
    let mut least = (Duration::MAX, Duration::MAX);
    let mut ratios = Vec::new();
    for _ in 0..ROUNDS {
        let (a, x) = time(ours);
        let (b, y) = time(rust);
        assert_eq!(x, y, "{name} on {text}: the answers differ");
        least = (least.0.min(a), least.1.min(b));
        ratios.push(b.as_secs_f64() / a.as_secs_f64());
    }
    ratios.sort_by(f64::total_cmp);
    let ratio = least.1.as_secs_f64() / least.0.as_secs_f64();
    let (low, high) = (ratios[ROUNDS / 4], ratios[ROUNDS * 3 / 4]);
    println!("| {name} | {text} | {ratio:.2} | {low:.2} to {high:.2} |");
}

fn main() {
    println!("| scan | text | speed against Rust's | middle half |\n|---|---|---|---|");
    for (name, text) in &texts() {
        let bytes = text.as_slice();
        compare(
            "UTF-8 check",
            name,
            &mut || unsafe { fazdrigon_valid_up_to(black_box(bytes.as_ptr()), bytes.len()) },
            &mut || std::str::from_utf8(black_box(bytes)).map_or_else(|e| e.valid_up_to(), str::len),
        );
        compare(
            "position, bytes",
            name,
            &mut || unsafe { fazdrigon_position_bytes(black_box(bytes.as_ptr()), bytes.len()) },
            &mut || black_box(bytes).iter().position(|b| b.is_ascii_uppercase()).unwrap_or(bytes.len()),
        );
        compare(
            "check and position, UTF-8",
            name,
            &mut || unsafe { fazdrigon_position_utf8(black_box(bytes.as_ptr()), bytes.len()) },
            &mut || {
                let text = std::str::from_utf8(black_box(bytes)).unwrap_or("");
                text.char_indices().find(|(_, c)| c.is_ascii_uppercase()).map_or(text.len(), |(at, _)| at)
            },
        );
        for tag in ["Q!", "e z!", "д я!"] {
            compare(
                &format!("find `{tag}`, bytes"),
                name,
                &mut || unsafe { fazdrigon_find_bytes(black_box(bytes.as_ptr()), bytes.len(), tag.as_ptr(), tag.len()) },
                &mut || {
                    let text = black_box(bytes);
                    text.windows(tag.len()).position(|w| w == tag.as_bytes()).unwrap_or(text.len())
                },
            );
            compare(
                &format!("check and find `{tag}`, UTF-8"),
                name,
                &mut || unsafe { fazdrigon_find_utf8(black_box(bytes.as_ptr()), bytes.len(), tag.as_ptr(), tag.len()) },
                &mut || {
                    let text = std::str::from_utf8(black_box(bytes)).unwrap_or("");
                    text.find(tag).unwrap_or(text.len())
                },
            );
        }
    }
}
