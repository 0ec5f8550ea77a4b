// Fonts and documents made up from a seed: sound ones, and the same damaged.
use crate::calls::{Bundle, Font};
use crate::random::Random;

// A font by its name, and some codes that it has.
#[derive(Clone)]
pub struct Known {
    pub name: Vec<u8>,
    pub codes: Vec<u8>,
}

pub struct Case {
    pub bundle: Bundle,
    pub documents: Vec<Vec<u8>>,
}

fn push(out: &mut Vec<u8>, n: i64, width: usize) {
    out.extend_from_slice(&n.to_be_bytes()[8 - width..]);
}

fn name(random: &mut Random, k: usize) -> Vec<u8> {
    let n = match random.below(20) {
        0 => 63,
        1 => 30,
        _ => 1 + random.below(6),
    };
    let mut name = vec![b'a' + (k % 26) as u8; n];
    if n > 1 {
        name[1] = b'0' + (k / 26) as u8;
    }
    name
}

fn fix_word(random: &mut Random) -> i64 {
    match random.below(8) {
        0 => 0,
        1 => random.within(-16_777_216, 16_777_215),
        2 => -1,
        _ => random.within(-100_000, 1_200_000),
    }
}

pub fn tfm(random: &mut Random) -> (Vec<u8>, Vec<u8>) {
    let first = random.below(200);
    let count = match random.below(12) {
        0 => 0,
        1 => 256 - first,
        _ => 1 + random.below(56),
    };
    let lh = 2 + random.below(4);
    let most = if random.one_in(10) { 256 } else { 9 };
    let nw = 1 + random.below(most);
    let rest: Vec<usize> = (0..7).map(|_| random.below(3)).collect();
    let lf = 6 + lh + count + nw + rest.iter().sum::<usize>();
    let mut out = Vec::new();
    // ec is one below bc where there are no codes
    let (first, last) = if count == 0 {
        (1, 0)
    } else {
        (first, first + count - 1)
    };
    for n in [lf, lh, first, last, nw].iter().chain(&rest) {
        push(&mut out, *n as i64, 2);
    }
    push(&mut out, random.next() as i64, 4);
    push(&mut out, random.within(1 << 20, 1 << 27), 4);
    for _ in 2..lh {
        push(&mut out, random.next() as i64, 4);
    }
    let mut codes = Vec::new();
    for k in 0..count {
        let index = random.below(nw);
        if index > 0 {
            codes.push((first + k) as u8);
        }
        push(&mut out, index as i64, 1);
        push(&mut out, random.next() as i64, 3);
    }
    for k in 0..nw {
        let word = if k == 0 { 0 } else { fix_word(random) };
        push(&mut out, word, 4);
    }
    for _ in 0..4 * rest.iter().sum::<usize>() {
        out.push(random.next() as u8);
    }
    (out, codes)
}

pub struct Selected {
    number: u32,
    codes: Vec<u8>,
}

fn push_number(random: &mut Random, out: &mut Vec<u8>, first: u8, n: i64) {
    let least = (1..4).find(|w| n < 1i64 << (8 * w)).unwrap_or(4);
    let width = if random.one_in(6) { 4 } else { least };
    out.push(first + width as u8 - 1);
    push(out, n, width as usize);
}

fn push_signed(random: &mut Random, out: &mut Vec<u8>, first: u8, b: i64) {
    let least = (1..4)
        .find(|w| (-(1i64 << (8 * w - 1))..1i64 << (8 * w - 1)).contains(&b))
        .unwrap_or(4);
    let width = if random.one_in(6) { 4 } else { least };
    out.push(first + width as u8 - 1);
    push(out, b, width as usize);
}

fn length(random: &mut Random, page: bool) -> i64 {
    match random.below(60) {
        0 => random.within(-(1 << 31), (1 << 31) - 1),
        1 if page => random.within((1 << 30) - 3, (1 << 30) + 1),
        2 => random.within(-16_777_216, 16_777_215),
        3..=9 => 0,
        10..=19 => random.within(-128, 128),
        20..=29 => random.within(-40_000, 40_000),
        _ => random.within(-900_000, 1_000_000),
    }
}

// Commands of a page or a packet, without an eop; most are sound, and most pushes have their pop.
pub fn commands(random: &mut Random, fonts: &[Selected], page: bool, count: usize) -> Vec<u8> {
    let mut out = Vec::new();
    let mut depth = 0;
    let mut codes: &[u8] = if page {
        &[]
    } else {
        fonts.first().map_or(&[], |f| &f.codes)
    };
    if page && !fonts.is_empty() {
        let font = random.pick(fonts);
        codes = &font.codes;
        push_font(random, &mut out, font.number);
    }
    for _ in 0..count {
        match random.below(24) {
            0..=8 if !codes.is_empty() => {
                let code = if random.one_in(40) {
                    random.next() as u8
                } else {
                    *random.pick(codes)
                };
                match random.below(4) {
                    0 => push_number(random, &mut out, 133, i64::from(code)),
                    1 if code < 128 => out.push(code),
                    _ => push_number(random, &mut out, 128, i64::from(code)),
                }
            }
            9 | 10 if !fonts.is_empty() => {
                let font = random.pick(fonts);
                codes = &font.codes;
                let number = if random.one_in(50) {
                    random.next() as u32
                } else {
                    font.number
                };
                push_font(random, &mut out, number);
            }
            11 => {
                out.push(*random.pick(&[132, 137]));
                for _ in 0..2 {
                    let side = if random.one_in(4) {
                        length(random, false)
                    } else {
                        random.within(1, 1_000_000)
                    };
                    push(&mut out, side, 4);
                }
            }
            12..=15 => {
                let first = *random.pick(&[143, 157]);
                let b = length(random, page);
                push_signed(random, &mut out, first, b);
            }
            16 | 17 => {
                let first = *random.pick(&[148, 153, 162, 167]);
                let b = length(random, page);
                push_signed(random, &mut out, first, b);
            }
            18 | 19 => out.push(*random.pick(&[147, 152, 161, 166])),
            20 => {
                out.push(141);
                depth += 1;
            }
            21 if depth > 0 => {
                out.push(142);
                depth -= 1;
            }
            22 => match random.below(5) {
                0 => {
                    let n = random.below(20);
                    out.push(239);
                    out.push(n as u8);
                    (0..n).for_each(|_| out.push(random.next() as u8));
                }
                1 if page => {
                    let numbers = [random.next() as u32];
                    definition(random, &mut out, numbers[0], 1000, b"zz");
                }
                _ => out.push(138),
            },
            _ if random.one_in(60) => out.push(random.next() as u8),
            _ => {}
        }
    }
    if !random.one_in(40) {
        (0..depth).for_each(|_| out.push(142));
    }
    out
}

fn push_font(random: &mut Random, out: &mut Vec<u8>, number: u32) {
    if number < 64 && !random.one_in(4) {
        out.push(171 + number as u8);
    } else {
        push_number(random, out, 235, i64::from(number));
    }
}

fn definition(random: &mut Random, out: &mut Vec<u8>, number: u32, size: i64, name: &[u8]) {
    push_number(random, out, 243, i64::from(number));
    push(out, random.next() as i64, 4);
    push(out, size, 4);
    push(out, random.within(1, (1 << 27) - 1), 4);
    let area = random.below(name.len() + 1);
    out.push(area as u8);
    out.push((name.len() - area) as u8);
    out.extend_from_slice(name);
}

fn number(random: &mut Random, taken: &[u32]) -> u32 {
    loop {
        let n = match random.below(6) {
            0 => random.next() as u32,
            1 => 64 + random.below(1000) as u32,
            _ => random.below(20) as u32,
        };
        if !taken.contains(&n) {
            return n;
        }
    }
}

pub fn vf(random: &mut Random, below: &[Known]) -> (Vec<u8>, Vec<u8>) {
    let mut out = vec![247, 202];
    let comment = random.below(5);
    out.push(comment as u8);
    (0..comment + 8).for_each(|_| out.push(random.next() as u8));
    let mut fonts: Vec<Selected> = Vec::new();
    let locals = if random.one_in(30) {
        16
    } else {
        random.below(4)
    };
    if !below.is_empty() {
        for _ in 0..locals {
            let font = random.pick(below);
            let taken: Vec<u32> = fonts.iter().map(|f| f.number).collect();
            let number = number(random, &taken);
            let size = match random.below(12) {
                0 => 1,
                1 => 16_777_215,
                2 => random.within(1, 16_777_215),
                3 => 524_288,
                _ => 1_048_576,
            };
            definition(random, &mut out, number, size, &font.name);
            fonts.push(Selected {
                number,
                codes: font.codes.clone(),
            });
        }
    }
    let mut codes = Vec::new();
    for _ in 0..random.below(7) {
        let code = if random.one_in(8) {
            random.next() as u8
        } else {
            60 + random.below(20) as u8
        };
        if codes.contains(&code) {
            continue;
        }
        codes.push(code);
        let count = random.below(9);
        let body = commands(random, &fonts, false, count);
        if body.len() > 241 || random.one_in(4) {
            out.push(242);
            push(&mut out, body.len() as i64, 4);
            push(&mut out, i64::from(code), 4);
            let width = fix_word(random);
            push(&mut out, width, 4);
        } else {
            out.push(body.len() as u8);
            out.push(code);
            push(&mut out, random.within(0, 2_000_000), 3);
        }
        out.extend_from_slice(&body);
    }
    (0..1 + random.below(4)).for_each(|_| out.push(248));
    (out, codes)
}

// A document of these pages' commands, each with its eop; the fonts are defined in the postamble.
pub fn document(
    random: &mut Random,
    mag: u32,
    fonts: &[(u32, i64, Vec<u8>)],
    pages: &[Vec<u8>],
) -> Vec<u8> {
    let mut out = vec![247, 2];
    let units = |out: &mut Vec<u8>| {
        push(out, 25_400_000, 4);
        push(out, 473_628_672, 4);
        push(out, i64::from(mag), 4);
    };
    units(&mut out);
    let comment = random.below(12);
    out.push(comment as u8);
    (0..comment).for_each(|_| out.push(random.next() as u8));
    let mut last = -1;
    for page in pages {
        (0..random.below(4)).for_each(|_| out.push(138));
        let place = out.len() as i64;
        out.push(139);
        (0..40).for_each(|_| out.push(random.next() as u8));
        push(&mut out, last, 4);
        last = place;
        out.extend_from_slice(page);
    }
    let post = out.len() as i64;
    out.push(248);
    push(&mut out, last, 4);
    units(&mut out);
    push(&mut out, random.next() as i64, 4);
    push(&mut out, random.next() as i64, 4);
    push(&mut out, random.next() as i64, 2);
    push(&mut out, pages.len() as i64, 2);
    for (number, size, name) in fonts {
        if random.one_in(5) {
            out.push(138);
        }
        definition(random, &mut out, *number, *size, name);
    }
    out.push(249);
    push(&mut out, post, 4);
    out.push(2);
    (0..4 + random.below(5)).for_each(|_| out.push(223));
    out
}

fn size(random: &mut Random) -> i64 {
    match random.below(10) {
        0 => 1,
        1 => (1 << 27) - 1,
        2 => random.within(1, (1 << 27) - 1),
        3 => 8_388_609,
        _ => 655_360,
    }
}

fn made_document(random: &mut Random, mag: u32, known: &[Known]) -> Vec<u8> {
    let mut fonts: Vec<(u32, i64, Vec<u8>)> = Vec::new();
    let mut selected = Vec::new();
    if !known.is_empty() {
        for _ in 0..random.below(6) {
            let font = random.pick(known);
            let taken: Vec<u32> = fonts.iter().map(|f| f.0).collect();
            let number = number(random, &taken);
            let name = if random.one_in(40) {
                b"nowhere".to_vec()
            } else {
                font.name.clone()
            };
            fonts.push((number, size(random), name));
            selected.push(Selected {
                number,
                codes: font.codes.clone(),
            });
        }
    }
    let pages: Vec<Vec<u8>> = (0..random.below(4))
        .map(|_| {
            let count = random.below(30);
            let mut page = commands(random, &selected, true, count);
            if !random.one_in(60) {
                page.push(140);
            }
            page
        })
        .collect();
    document(random, mag, &fonts, &pages)
}

// One change to a byte string: a byte, a number, its end, or a piece that is taken out or doubled.
pub fn damage(random: &mut Random, bytes: &mut Vec<u8>) {
    if bytes.is_empty() {
        return bytes.push(0);
    }
    let at = if random.one_in(3) {
        // near either end, where the fields are
        let k = random.below(60.min(bytes.len()));
        if random.one_in(2) {
            k
        } else {
            bytes.len() - 1 - k
        }
    } else {
        random.below(bytes.len())
    };
    match random.below(8) {
        0 => bytes[at] ^= 1 << random.below(8),
        1 => bytes[at] = random.next() as u8,
        2 => bytes.truncate(at),
        3 => bytes.push(random.next() as u8),
        4 => bytes[at] = bytes[at].wrapping_add(if random.one_in(2) { 1 } else { 255 }),
        5 => {
            let n = *random.pick(&[
                0u32,
                1,
                0x7fff_ffff,
                0x8000_0000,
                u32::MAX,
                1 << 27,
                (1 << 27) - 1,
                1 << 24,
            ]);
            for (k, b) in n.to_be_bytes().iter().enumerate() {
                if let Some(x) = bytes.get_mut(at + k) {
                    *x = *b;
                }
            }
        }
        6 => {
            let n = 1 + random.below(6);
            let to = (at + n).min(bytes.len());
            bytes.drain(at..to);
        }
        _ => {
            let b = bytes[at];
            bytes.insert(at, b);
        }
    }
}

// The names and files one behind the other.
pub fn bundle(random: &mut Random, pieces: &[(u32, Vec<u8>, Vec<u8>)]) -> Bundle {
    let mut made = Bundle::default();
    for (rank, name, file) in pieces {
        (0..random.below(3)).for_each(|_| made.bytes.push(0));
        let name_place = made.bytes.len();
        made.bytes.extend_from_slice(name);
        let file_place = made.bytes.len();
        made.bytes.extend_from_slice(file);
        made.fonts.push(Font {
            rank: *rank,
            name_place,
            name_length: name.len(),
            file_place,
            file_length: file.len(),
        });
    }
    made
}

// A bundle and one or two documents for it. Of four cases one is damaged in its fonts and one in its documents.
pub fn case(seed: u64) -> Case {
    let random = &mut Random::new(seed);
    let mut pieces: Vec<(u32, Vec<u8>, Vec<u8>)> = Vec::new();
    let mut known: Vec<Known> = Vec::new();
    for _ in 0..random.below(5) {
        let (file, codes) = tfm(random);
        let name = if random.one_in(60) && !known.is_empty() {
            random.pick(&known).name.clone()
        } else {
            name(random, known.len())
        };
        known.push(Known {
            name: name.clone(),
            codes,
        });
        pieces.push((0, name, file));
    }
    for rank in 1..=random.below(5) as u32 {
        let below = known.clone();
        let files = if random.one_in(40) {
            9
        } else {
            random.below(4)
        };
        for _ in 0..files {
            let (file, codes) = vf(random, &below);
            let name = name(random, known.len());
            known.push(Known {
                name: name.clone(),
                codes,
            });
            pieces.push((rank, name, file));
        }
    }
    let kind = seed % 4;
    if kind == 1 && !pieces.is_empty() {
        let k = random.below(pieces.len());
        if random.one_in(12) {
            damage(random, &mut pieces[k].1);
        } else {
            damage(random, &mut pieces[k].2);
        }
    }
    // VF files of a rank may stand before TFM files in the list
    if random.one_in(5) {
        pieces.reverse();
    }
    let mut bundle = bundle(random, &pieces);
    if kind == 1 && !bundle.fonts.is_empty() && random.one_in(6) {
        let n = *random.pick(&[
            0,
            1,
            64,
            1000,
            usize::MAX,
            usize::MAX - 3,
            bundle.bytes.len(),
        ]);
        let k = random.below(bundle.fonts.len());
        let font = &mut bundle.fonts[k];
        match random.below(5) {
            0 => font.name_place = n,
            1 => font.name_length = n,
            2 => font.file_place = n,
            3 => font.file_length = n,
            _ => font.rank = random.below(7) as u32,
        }
    }
    let mag = if random.one_in(4) {
        random.within(1, 32_768) as u32
    } else {
        1000
    };
    let mut documents = vec![made_document(random, mag, &known)];
    if random.one_in(3) {
        let other = if random.one_in(4) { 1440 } else { mag };
        documents.push(made_document(random, other, &known));
    }
    if kind == 2 {
        let k = random.below(documents.len());
        for _ in 0..1 + random.below(2) {
            damage(random, &mut documents[k]);
        }
    }
    Case { bundle, documents }
}
