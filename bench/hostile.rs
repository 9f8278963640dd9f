//! Random texts to try the router and the check on, each a function of its seed: jobs of every family, damaged ones, and texts made to be
//! refused. None is meant to be accepted or refused by itself: what the second router says of it is what counts.

use second_router::job::Job;
use second_router::prng::Prng;
use second_router::{gen, geometry};

/// The families of the largest jobs, which take the most time.
const LARGEST: [&str; 3] = ["max", "mixedmax", "speed"];

/// A job text, and the name of its kind: of its family, where it is made by the second router's generator. Families of orders that are
/// still to come are among them: their jobs must be refused as before those orders.
pub fn job_text(p: &mut Prng) -> (&'static str, Vec<u8>) {
    match p.pick(1, 1000) {
        1 => {
            let name = LARGEST[p.pick(0, 2)];
            (name, family(p, name))
        }
        2..=330 => {
            let name = gen::FAMILIES[p.pick(0, gen::FAMILIES.len() - 1)];
            let name = if LARGEST.contains(&name) { "small" } else { name };
            (name, family(p, name))
        }
        331..=500 => ("job of random numbers", random_job(p)),
        501..=530 => ("text about 64,000 bytes", long_text(p)),
        531..=560 => ("512 nets or 256 blocks, about", many_forms(p)),
        561..=620 => ("weights put in", {
            let text = small_job(p);
            weights_put_in(p, &text)
        }),
        621..=850 => ("damaged job", {
            let text = small_job(p);
            damaged(p, text, &JOB_PIECES)
        }),
        _ => hostile_job(p),
    }
}

/// A text to be checked as the layout of a job, which is given as it is read too, beside the layouts and mutants of the second router.
pub fn layout_text(p: &mut Prng, job: &[u8], accepted: &Job, layout: &[u8]) -> (&'static str, Vec<u8>) {
    match p.pick(1, 100) {
        1..=40 => ("layout, a number changed", changed_number(p, layout)),
        41..=75 => ("damaged layout", damaged(p, layout.to_vec(), &LAYOUT_PIECES)),
        76..=83 => ("layout of pieces", pieces(p, &LAYOUT_PIECES)),
        84..=88 => ("random bytes", random_bytes(p)),
        89..=92 => ("the job as layout", job.to_vec()),
        93..=95 => ("layout, a line many times", repeated_line(p, layout)),
        96..=97 => ("layout, a wire many times in lines and sum", repeated_wire(p, accepted, layout).unwrap_or_else(|| layout.to_vec())),
        _ => ("layout about 64,000 bytes", filled(p, layout.to_vec())),
    }
}

/// A job of one of the second router's families.
fn family(p: &mut Prng, name: &str) -> Vec<u8> {
    gen::generate(p.next(), name).expect("a family")
}

fn small_job(p: &mut Prng) -> Vec<u8> {
    const NAMES: [&str; 11] = [
        "tiny", "tiny", "small", "precedence", "stretch", "spacing", "ties", "weights", "weights", "mixed", "mixedspacing",
    ];
    let name = NAMES[p.pick(0, NAMES.len() - 1)];
    family(p, name)
}

// ---------------------------------------------------------------- jobs of random numbers

/// A number of the range, now and then just outside it.
fn about(p: &mut Prng, low: usize, high: usize) -> usize {
    match p.pick(1, 60) {
        1 => low.saturating_sub(1),
        2 => high + 1,
        _ => p.pick(low, high),
    }
}

/// What stands behind the five numbers of a net: nothing or a weight, now and then one outside its range or with zeros in front, or more
/// than one number.
fn some_weight(p: &mut Prng) -> String {
    match p.pick(1, 60) {
        1..=20 => String::new(),
        21..=36 => format!(" {}", p.pick(1, 9)),
        37..=50 => format!(" {}", p.pick(1, 999)),
        51..=57 => [" 1", " 2", " 998", " 999"][p.pick(0, 3)].to_string(),
        58 => [" 0", " 1000", " 1001", " 9999", " 99999", " 100000", " 65537"][p.pick(0, 6)].to_string(),
        59 => [" 007", " 00999", " 000999", " 01000", " 00000"][p.pick(0, 4)].to_string(),
        _ => [" 7 7", " 7 7 7", " 1000 7", " 7 1000", " -7", " x"][p.pick(0, 5)].to_string(),
    }
}

/// A text with more numbers in some of its net lines, which may have a weight already.
fn weights_put_in(p: &mut Prng, text: &[u8]) -> Vec<u8> {
    let mut out = Vec::new();
    for line in text.split_inclusive(|&byte| byte == 10) {
        let is_net = line.windows(3).any(|word| word == b"net");
        match line.iter().rposition(|&byte| byte == b')') {
            Some(end) if is_net && p.chance(2, 3) => {
                out.extend_from_slice(&line[..end]);
                out.extend_from_slice(some_weight(p).as_bytes());
                out.extend_from_slice(&line[end..]);
            }
            _ => out.extend_from_slice(line),
        }
    }
    out
}

/// A job whose numbers are drawn without looking at each other, so that any refusal of 3 to 9 can come up at any line, several on one. One
/// job in two has weights.
fn random_job(p: &mut Prng) -> Vec<u8> {
    let weights = p.chance(1, 2);
    let most = [6, 20, 200, 1024][p.pick(0, 3)];
    let widest = [2, 6, 128][p.pick(0, 2)];
    let (rows, tracks) = (p.pick(1, most), p.pick(1, widest));
    let mut text = format!("(board\n (rows {})\n (tracks {})\n", rows, tracks);
    let mut number = 0;
    for _ in 0..p.pick(0, 14) {
        if p.chance(1, 4) {
            let first = about(p, 1, rows);
            let last = if p.chance(1, 12) { about(p, 1, rows) } else { about(p, first.min(rows), rows) };
            text.push_str(&format!(" (block {} {} {})\n", about(p, 1, tracks), first, last));
            continue;
        }
        number = if p.chance(1, 40) { about(p, 1, 9999) } else { number + p.pick(1, 3) };
        let (left, right) = (about(p, 1, rows), about(p, 1, rows));
        let plain = 2 * tracks + 1 + left.abs_diff(right);
        let min = if p.chance(1, 2) { plain + p.pick(0, 8) } else { p.pick(0, plain) };
        let max = (min.max(plain) + p.pick(0, 6)).saturating_sub(p.pick(0, 30) / 29 * 3);
        let min = if p.chance(1, 60) { 4_096 } else { min };
        let weight = if weights { some_weight(p) } else { String::new() };
        text.push_str(&format!(" (net {} {} {} {} {}{})\n", number, left, right, min, max, weight));
    }
    (text + ")\n").into_bytes()
}

// ---------------------------------------------------------------- long texts, many forms

/// A length about the most that is read.
fn length_about(p: &mut Prng) -> usize {
    [63_999, 64_000, 64_001, 64_002, 65_535, 65_536, 65_537, 131_072][p.pick(0, 7).min(p.pick(0, 7))]
}

/// A text filled up to a length about 64,000 bytes: in front, behind, or at some place within.
fn filled(p: &mut Prng, text: Vec<u8>) -> Vec<u8> {
    let length = length_about(p);
    let fill = b"\n \n (0x"[p.pick(0, 6)];
    let missing = length.saturating_sub(text.len());
    let at = [0, text.len(), p.pick(0, text.len())][p.pick(0, 2)];
    let mut out = text[..at].to_vec();
    out.extend(std::iter::repeat(fill).take(missing));
    out.extend_from_slice(&text[at..]);
    out
}

fn long_text(p: &mut Prng) -> Vec<u8> {
    let text = small_job(p);
    if p.chance(2, 3) {
        return filled(p, text);
    }
    // a job again and again, or one of its lines
    let length = length_about(p);
    let lines: Vec<&[u8]> = text.split_inclusive(|&byte| byte == 10).collect();
    let piece = if p.chance(1, 2) { &text[..] } else { lines[p.pick(0, lines.len() - 1)] };
    piece.iter().cycle().take(length).cloned().collect()
}

/// 510 to 514 nets or 254 to 258 blocks, or both, with a faulty last line now and then.
fn many_forms(p: &mut Prng) -> Vec<u8> {
    let mut lines = Vec::new();
    if p.chance(2, 3) {
        let reach = p.pick(1, 3);
        let heaviest = [0, 1, 9, 999][p.pick(0, 3)];
        for i in 1..=p.pick(510, 514) {
            let weight = if heaviest == 0 { String::new() } else { format!(" {}", p.pick((heaviest + 1) / 2, heaviest)) };
            lines.push(format!(" (net {} {} {} 0 4095{})\n", i, i, i + reach, weight));
        }
    }
    if p.chance(1, 2) || lines.is_empty() {
        for i in 0..p.pick(254, 258) {
            let at = p.pick(0, lines.len());
            let line = format!(" (block {} {} {})\n", 1 + i % 2, 1 + i % 9, 9 + i % 900);
            if p.chance(1, 2) { lines.push(line) } else { lines.insert(at, line) }
        }
    }
    if p.chance(1, 3) {
        let last = [
            " (net 1 1 1 0 0)\n", " (net 9999 1025 1 0 0)\n", " (net 513 513 513 0 0)\n", " (net 9999 1 1 0 0 1000)\n", " (net 9999 1 1 0 0 0)\n",
            " (net 9999 1 1 0 0 999)\n", " (net 9999 1 1 0 0 7 7)\n", " (block 3 1 1)\n", " (block 1 2 1)\n", " (block 1 1 1 7)\n", "x\n",
        ];
        lines.push(last[p.pick(0, last.len() - 1)].to_string());
    }
    format!("(board\n(rows 1024)\n(tracks 2)\n{})\n", lines.concat()).into_bytes()
}

// ---------------------------------------------------------------- damage

const JOB_PIECES: [&[u8]; 46] = [
    b"(", b")", b" ", b"\n", b"  ", b"\t", b"\r", b"\0", b"\r\n", b"0", b"9", b"00001", b"000001", b"99999", b"100000", b"65536", b"4294967296",
    b"18446744073709551617", b"-1", b"+1", b"1e3", b"0x1", b"board", b"(board\n", b"board\0\0\0", b"Board", b"rows", b"(rows 5)\n", b"tracks",
    b"(tracks 2)\n", b"net", b" (net 1 1 2 0 99)\n", b"(net 9999 2 1 0 4095)\n", b"nets", b"block", b" (block 1 1 1)\n", b"(block 1 1 1)", b")\n",
    b" (net 1 1 2 0 99 7)\n", b"(net 9999 2 1 0 4095 999)\n", b" 7)\n", b" 0)\n", b" 1000)\n", b" 999 999)\n", b"\xef\xbb\xbf", b"\xff",
];

const LAYOUT_PIECES: [&[u8]; 40] = [
    b"(", b")", b" ", b"\n", b"  ", b"\t", b"\r", b"\0", b"\r\n", b"0", b"9", b"00001", b"000001", b"99999", b"1000000", b"65536", b"4294967296",
    b"18446744073709551617", b"-1", b"+1", b"layout", b"(layout\n", b"layout\0\0", b"Layout", b"track", b" (track 1 0)\n", b" (track 2 0)\n",
    b" (track 1 9)\n", b"wire", b" (wire 1)\n", b" (wire 1 (0 1) (1 1) (1 2) (3 2))\n", b" (wire 0 (0 0))\n", b"loose", b" (loose 1)\n",
    b" (loose 2)\n", b")\n", b" )\n", b" (0 1)", b"\xef\xbb\xbf", b"\xff",
];

/// One to four damages to a text.
fn damaged(p: &mut Prng, mut text: Vec<u8>, all: &[&[u8]]) -> Vec<u8> {
    let times = p.pick(1, 4).min(p.pick(1, 4));
    for _ in 0..times {
        text = damaged_once(p, text, all);
    }
    text
}

fn damaged_once(p: &mut Prng, mut text: Vec<u8>, all: &[&[u8]]) -> Vec<u8> {
    if text.is_empty() {
        return pieces(p, all);
    }
    let at = p.pick(0, text.len() - 1);
    match p.pick(0, 10) {
        0 => text[at] = p.pick(0, 255) as u8,
        1 => text[at] ^= 1 << p.pick(0, 7),
        2 => {
            text.remove(at);
        }
        3 => text.insert(at, text[at]),
        4 => text.truncate(at),
        5 | 6 => return changed_number(p, &text),
        7 => {
            let piece = all[p.pick(0, all.len() - 1)];
            let gone = p.pick(0, 6).min(text.len() - at);
            text.splice(at..at + gone, piece.iter().cloned());
        }
        8 => {
            // a part of the text twice
            let to = p.pick(at, text.len());
            let part = text[at..to].to_vec();
            text.splice(at..at, part);
        }
        _ => return moved_lines(p, &text),
    }
    text
}

/// Lines swapped, doubled, taken out, moved, joined.
fn moved_lines(p: &mut Prng, text: &[u8]) -> Vec<u8> {
    let mut lines: Vec<Vec<u8>> = text.split_inclusive(|&byte| byte == 10).map(|line| line.to_vec()).collect();
    let (i, j) = (p.pick(0, lines.len() - 1), p.pick(0, lines.len() - 1));
    match p.pick(0, 5) {
        0 => lines.swap(i, j),
        1 => lines.insert(j, lines[i].clone()),
        2 => {
            lines.remove(i);
        }
        3 => {
            let line = lines.remove(i);
            lines.insert(j.min(lines.len()), line);
        }
        4 => {
            lines[i].pop(); // two forms on one line
        }
        _ => p.shuffle(&mut lines),
    }
    lines.concat()
}

/// The places of the numbers in a text: first byte, and the one after the last.
fn numbers(text: &[u8]) -> Vec<(usize, usize)> {
    let mut found = Vec::new();
    let mut at = 0;
    while at < text.len() {
        let from = at;
        while at < text.len() && text[at].is_ascii_digit() {
            at += 1;
        }
        if from < at {
            found.push((from, at));
        }
        at += 1;
    }
    found
}

/// One number of a text changed: a neighbour, another number of the text, an end of a range, the same with zeros in front.
fn changed_number(p: &mut Prng, text: &[u8]) -> Vec<u8> {
    const ENDS: [&str; 27] = [
        "0", "1", "2", "63", "64", "65", "127", "128", "129", "998", "999", "1000", "1023", "1024", "1025", "4095", "4096", "9999", "10000", "65535",
        "65536", "99999", "100000", "999999", "1000000", "4294967297", "18446744073709551617",
    ];
    let all = numbers(text);
    if all.is_empty() {
        return text.to_vec();
    }
    let (from, to) = all[p.pick(0, all.len() - 1)];
    let old = String::from_utf8_lossy(&text[from..to]).to_string();
    let value: u128 = old.parse().unwrap_or(7);
    let new = match p.pick(0, 7) {
        0 | 1 => (value + 1).to_string(),
        2 | 3 => value.saturating_sub(1).to_string(),
        4 | 5 => {
            let (from, to) = all[p.pick(0, all.len() - 1)];
            String::from_utf8_lossy(&text[from..to]).to_string()
        }
        6 => ENDS[p.pick(0, ENDS.len() - 1)].to_string(),
        _ => "0".repeat(p.pick(1, 5)) + &old,
    };
    [&text[..from], new.as_bytes(), &text[to..]].concat()
}

// ---------------------------------------------------------------- hostile texts

/// Pieces of texts, one behind the other.
fn pieces(p: &mut Prng, all: &[&[u8]]) -> Vec<u8> {
    (0..p.pick(0, 40)).flat_map(|_| all[p.pick(0, all.len() - 1)].to_vec()).collect()
}

/// Any bytes, or such as stand in texts.
fn random_bytes(p: &mut Prng) -> Vec<u8> {
    let alphabet: Vec<u8> = match p.pick(0, 2) {
        0 => (0..=255).collect(),
        1 => b"() \n0123456789abcdeklnorstwuy\t\r\0".to_vec(),
        _ => b"() \n1".to_vec(),
    };
    let most = [8, 80, 800][p.pick(0, 2)];
    (0..p.pick(0, most)).map(|_| alphabet[p.pick(0, alphabet.len() - 1)]).collect()
}

/// A line of a text many times, where it stands.
fn repeated_line(p: &mut Prng, text: &[u8]) -> Vec<u8> {
    let mut lines: Vec<&[u8]> = text.split_inclusive(|&byte| byte == 10).collect();
    if lines.is_empty() {
        return Vec::new();
    }
    let i = p.pick(0, lines.len() - 1);
    let most = [4, 40, 64_000 / lines[i].len()][p.pick(0, 2)].max(1);
    let times = p.pick(1, most);
    for _ in 0..times {
        lines.insert(i, lines[i]);
    }
    lines.concat()
}

/// A wire line of a track many times, and the weight of its net in the track's sum as often, now and then once more; a sum of more than six
/// digits loses those in front. The further lines may have no points. None if the text has no such line.
fn repeated_wire(p: &mut Prng, accepted: &Job, text: &[u8]) -> Option<Vec<u8>> {
    let mut lines: Vec<Vec<u8>> = text.split_inclusive(|&byte| byte == 10).map(|line| line.to_vec()).collect();
    let wires: Vec<usize> = (0..lines.len()).filter(|&i| lines[i].starts_with(b" (wire ")).collect();
    if wires.is_empty() {
        return None;
    }
    let at = wires[p.pick(0, wires.len() - 1)];
    let track = (0..at).rev().find(|&i| lines[i].starts_with(b" (track "))?;
    let values = |line: &[u8]| -> Vec<usize> {
        numbers(line).iter().filter_map(|&(from, to)| std::str::from_utf8(&line[from..to]).ok()?.parse().ok()).collect()
    };
    let number = *values(&lines[at]).first()?;
    let net = accepted.nets.iter().find(|net| net.number == number)?;
    let again = if p.chance(1, 2) { lines[at].clone() } else { format!(" (wire {})\n", number).into_bytes() };
    let most = (64_000usize.saturating_sub(text.len()) / again.len()).max(1);
    let most = [3, 80, most][p.pick(0, 2)].min(most);
    let times = p.pick(1, most);
    let counted = times + if p.chance(1, 8) { 1 } else { 0 };
    let sum = (*values(&lines[track]).get(1)? % 1_000_000 + counted * geometry::weight(net, accepted.board)) % 1_000_000;
    lines[track] = format!(" (track {} {})\n", values(&lines[track])[0], sum).into_bytes();
    lines.splice(at + 1..at + 1, std::iter::repeat(again).take(times));
    Some(lines.concat())
}

/// A byte in place of another, everywhere or at some places.
fn exchanged(p: &mut Prng, text: Vec<u8>, old: u8, new: &[u8]) -> Vec<u8> {
    let some = p.chance(1, 2);
    text.iter().flat_map(|&byte| if byte == old && (!some || p.chance(1, 8)) { new.to_vec() } else { vec![byte] }).collect()
}

fn hostile_job(p: &mut Prng) -> (&'static str, Vec<u8>) {
    let text = small_job(p);
    match p.pick(0, 11) {
        0 => ("random bytes", random_bytes(p)),
        1 => ("job of pieces", pieces(p, &JOB_PIECES)),
        2 => ("CR LF", exchanged(p, text, b'\n', b"\r\n")),
        3 => ("tabs", exchanged(p, text, b' ', b"\t")),
        4 => ("NUL", exchanged(p, text, b' ', b"\0")),
        5 => ("brackets doubled", exchanged(p, text, b'(', b"((")),
        6 => ("deep brackets", {
            let deep = [&b"("[..], b"(board\n", b"()", b")", b"( "][p.pick(0, 4)].repeat(p.pick(1, 3000));
            if p.chance(1, 2) { deep } else { [text, deep].concat() }
        }),
        7 => ("zeros in front", exchanged(p, text, b' ', b" 00")),
        8 => ("a line many times", repeated_line(p, &text)),
        9 => ("a start of a job", text[..p.pick(0, text.len())].to_vec()),
        10 => ("upper case", text.to_ascii_uppercase()),
        _ => ("one more net", {
            // a further net, whose pins another net may have already
            let at = text.len() - 2;
            let (left, right) = (p.pick(1, 9), p.pick(1, 9));
            let line = format!("(net 9999 {} {} 0 4095{})\n", left, right, some_weight(p)).into_bytes();
            if text.ends_with(b")\n") { [&text[..at], &line, &text[at..]].concat() } else { text }
        }),
    }
}
