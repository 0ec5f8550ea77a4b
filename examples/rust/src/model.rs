// A second implementation of what the library does, written from docs/ alone: legal documents, shelves of TFM and VF files,
// the machine, pages read, and flat files. It is for comparison: short and plain, and it allocates as it likes.
use crate::calls::{
    Answer, Bundle, Document, Font, Link, Mark, Page, Source, BAD_RECORD, STEP_CALL, STEP_CLOSING,
    STEP_DOCUMENT, STEP_FONT, STEP_PAGE,
};

const POSITION_LIMIT: i64 = (1 << 30) - 1;
const SIZE_LIMIT: i64 = (1 << 27) - 1;
const MOST_OUTPUT: usize = 16_777_216;
const NO_PAGE: u32 = u32::MAX;

fn unsigned(bytes: &[u8], place: usize, width: usize) -> u32 {
    bytes[place..place + width]
        .iter()
        .fold(0, |n, b| n << 8 | u32::from(*b))
}

fn signed(bytes: &[u8], place: usize, width: usize) -> i64 {
    let n = i64::from(unsigned(bytes, place, width));
    let full = 1i64 << (8 * width);
    if 2 * n < full {
        n
    } else {
        n - full
    }
}

fn is_size(n: i64) -> bool {
    (1..=SIZE_LIMIT).contains(&n)
}

fn in_range(n: i64) -> bool {
    n.abs() <= POSITION_LIMIT
}

// A fix_word, as the signed number of its four bytes, scaled by a size; none where it is none.
fn scaled(word: i64, size: i64) -> Option<i64> {
    if !(-16_777_216..16_777_216).contains(&word) {
        return None;
    }
    let (mut z, mut e) = (size, 0);
    while z >= 1 << 23 {
        z /= 2;
        e += 1;
    }
    // Rounded towards minus infinity, which is what the three steps come to.
    Some((word * z).div_euclid(1 << (20 - e)))
}

// ---------------------------------------------------------------- documents

// A refusal of a document: its number and value.
type Denied = (u32, usize);

pub struct Stated {
    pub record: Document,
    // number, size, name of each definition in the postamble, in order
    fonts: Vec<(u32, i64, Vec<u8>)>,
}

pub fn legal(b: &[u8]) -> Result<Stated, Denied> {
    let length = b.len();
    if !(54..=16_777_216).contains(&length) {
        return Err((1, length));
    }
    if b[0] != 247 {
        return Err((2, 0));
    }
    if b[1] != 2 {
        return Err((2, 1));
    }
    let (num, den) = (25_400_000, 473_628_672);
    let mag = unsigned(b, 10, 4);
    for (place, sound) in [
        (2, unsigned(b, 2, 4) == num),
        (6, unsigned(b, 6, 4) == den),
        (10, (1..=32_768).contains(&mag)),
    ] {
        if !sound {
            return Err((3, place));
        }
    }
    let past_comment = 15 + usize::from(b[14]);
    let bare = length - b.iter().rev().take_while(|x| **x == 223).count();
    if length - bare < 4 || bare < 6 || b[bare - 1] != 2 || b[bare - 6] != 249 {
        return Err((4, length));
    }
    let end = bare - 6;
    let q = unsigned(b, bare - 5, 4) as usize;
    if q < past_comment || q + 29 > end || b[q] != 248 {
        return Err((4, length));
    }
    for (place, wanted) in [(q + 5, num), (q + 9, den), (q + 13, mag)] {
        if unsigned(b, place, 4) != wanted {
            return Err((3, place));
        }
    }
    let mut fonts: Vec<(u32, i64, Vec<u8>)> = Vec::new();
    let mut at = q + 29;
    while at < end {
        if b[at] == 138 {
            at += 1;
            continue;
        }
        let w = usize::from(b[at]).wrapping_sub(242);
        if !(1..=4).contains(&w) || at + w + 15 > end {
            return Err((6, at));
        }
        let number = unsigned(b, at + 1, w);
        let size = i64::from(unsigned(b, at + w + 5, 4));
        let design = i64::from(unsigned(b, at + w + 9, 4));
        let n = usize::from(b[at + w + 13]) + usize::from(b[at + w + 14]);
        let sound = at + w + 15 + n <= end
            && is_size(size)
            && is_size(design)
            && (1..=63).contains(&n)
            && fonts.iter().all(|f| f.0 != number);
        if !sound {
            return Err((6, at));
        }
        fonts.push((number, size, b[at + w + 15..at + w + 15 + n].to_vec()));
        at += w + 15 + n;
    }
    let pages = unsigned(b, q + 27, 2);
    let (mut limit, mut place) = (q, q + 1);
    for _ in 0..pages {
        let a = unsigned(b, place, 4) as usize;
        if a < past_comment || a + 45 > q || a >= limit || b[a] != 139 {
            return Err((5, place));
        }
        limit = a;
        place = a + 41;
    }
    if unsigned(b, place, 4) != NO_PAGE {
        return Err((5, place));
    }
    let record = Document {
        mag,
        l: unsigned(b, q + 17, 4),
        u: unsigned(b, q + 21, 4),
        pages,
        last: unsigned(b, q + 1, 4),
        post: q,
        end,
    };
    Ok(Stated { record, fonts })
}

fn page_place(b: &[u8], stated: &Stated, page: usize) -> Option<usize> {
    let pages = stated.record.pages as usize;
    if page < 1 || page > pages {
        return None;
    }
    let mut place = stated.record.last as usize;
    for _ in page..pages {
        place = unsigned(b, place + 41, 4) as usize;
    }
    Some(place)
}

// ---------------------------------------------------------------- shelves

struct Face {
    name: Vec<u8>,
    checksum: u32,
    design: u32,
    first: usize,
    indices: Vec<u8>,
    widths: Vec<i64>,
}

struct Packet {
    start: usize,
    length: usize,
    width: i64,
}

struct Virtual {
    name: Vec<u8>,
    file: Vec<u8>,
    // number, font of the shelf below, size as a fix_word, in order
    locals: Vec<(u32, usize, i64)>,
    packets: Vec<Option<Packet>>,
}

pub struct Shelf {
    faces: Vec<Face>,
    ranks: Vec<Vec<Virtual>>,
}

fn tfm(b: &[u8]) -> Option<(u32, u32, usize, Vec<u8>, Vec<i64>)> {
    if b.len() < 24 {
        return None;
    }
    let n: Vec<usize> = (0..12).map(|k| unsigned(b, 2 * k, 2) as usize).collect();
    let (lf, lh, bc, ec, nw) = (n[0], n[1], n[2], n[3], n[4]);
    let rest: usize = n[5..].iter().sum();
    if b.len() != 4 * lf || lh < 2 || bc > ec + 1 || ec > 255 || !(1..=256).contains(&nw) {
        return None;
    }
    let codes = ec + 1 - bc;
    if lf != 6 + lh + codes + nw + rest {
        return None;
    }
    let design = unsigned(b, 28, 4);
    let characters = 24 + 4 * lh;
    let indices: Vec<u8> = (0..codes).map(|k| b[characters + 4 * k]).collect();
    let from = characters + 4 * codes;
    let widths: Vec<i64> = (0..nw).map(|k| signed(b, from + 4 * k, 4)).collect();
    let sound = (1 << 20..1u32 << 31).contains(&design)
        && indices.iter().all(|i| usize::from(*i) < nw)
        && widths.iter().all(|w| (-16_777_216..16_777_216).contains(w))
        && widths[0] == 0;
    sound.then(|| (unsigned(b, 24, 4), design, bc, indices, widths))
}

impl Shelf {
    // The names of the fonts with so many ranks.
    fn names(&self, ranks: usize) -> impl Iterator<Item = &[u8]> {
        let faces = self.faces.iter().map(|f| f.name.as_slice());
        faces.chain(
            self.ranks[..ranks]
                .iter()
                .flatten()
                .map(|f| f.name.as_slice()),
        )
    }

    fn find(&self, ranks: usize, name: &[u8]) -> Option<usize> {
        self.names(ranks).position(|n| n == name)
    }

    fn count(&self, ranks: usize) -> usize {
        self.names(ranks).count()
    }

    // A VF file over the first ranks, or its refusal with its value.
    fn vf(&self, ranks: usize, name: &[u8], b: &[u8]) -> Result<Virtual, Denied> {
        if b.len() < 3 || b[..2] != [247, 202] || b.len() < 11 + usize::from(b[2]) {
            return Err((7, 0));
        }
        let mut made = Virtual {
            name: name.to_vec(),
            file: b.to_vec(),
            locals: Vec::new(),
            packets: (0..256).map(|_| None).collect(),
        };
        let mut any_packet = false;
        let mut at = 11 + usize::from(b[2]);
        loop {
            let broken = Err((7, at));
            let left = b.len() - at;
            if left == 0 {
                return broken;
            }
            let op = b[at];
            if op == 248 {
                return match b[at..].iter().position(|x| *x != 248) {
                    Some(k) => Err((7, at + k)),
                    None => Ok(made),
                };
            }
            if (243..=246).contains(&op) {
                let w = usize::from(op - 242);
                if any_packet || made.locals.len() == 16 || left < w + 15 {
                    return broken;
                }
                let n = usize::from(b[at + w + 13]) + usize::from(b[at + w + 14]);
                let number = unsigned(b, at + 1, w);
                let size = signed(b, at + w + 5, 4);
                if left < w + 15 + n
                    || !(1..16_777_216).contains(&size)
                    || made.locals.iter().any(|l| l.0 == number)
                {
                    return broken;
                }
                let name = &b[at + w + 15..at + w + 15 + n];
                match self.find(ranks, name) {
                    Some(font) => made.locals.push((number, font, size)),
                    None => return Err((10, at)),
                }
                at += w + 15 + n;
                continue;
            }
            if op > 242 {
                return broken;
            }
            any_packet = true;
            let head = if op == 242 { 13 } else { 5 };
            if left < head {
                return broken;
            }
            let (length, code, width) = if op == 242 {
                (
                    unsigned(b, at + 1, 4) as usize,
                    unsigned(b, at + 5, 4) as usize,
                    signed(b, at + 9, 4),
                )
            } else {
                (
                    usize::from(op),
                    usize::from(b[at + 1]),
                    i64::from(unsigned(b, at + 2, 3)),
                )
            };
            if left < head + length
                || code > 255
                || !(-16_777_216..16_777_216).contains(&width)
                || made.packets[code].is_some()
            {
                return broken;
            }
            made.packets[code] = Some(Packet {
                start: at + head,
                length,
                width,
            });
            at += head + length;
        }
    }

    fn width(&self, face: usize, size: i64, code: usize) -> Option<i64> {
        let f = &self.faces[face];
        let index = *f.indices.get(code.checked_sub(f.first)?)?;
        if index == 0 {
            return None;
        }
        scaled(f.widths[usize::from(index)], size)
    }
}

fn piece(bytes: &[u8], place: usize, length: usize) -> Option<&[u8]> {
    bytes.get(place..place.checked_add(length)?)
}

// The shelf of a bundle, or the answer that refuses it.
pub fn shelf(bundle: &Bundle) -> Result<Shelf, Answer> {
    let refused = |number, rank, index, value| Answer {
        number,
        step: STEP_FONT,
        rank,
        index,
        value,
        ..Answer::default()
    };
    if bundle.fonts.iter().any(|f| f.rank > 4) {
        return Err(Answer {
            number: BAD_RECORD,
            step: STEP_CALL,
            ..Answer::default()
        });
    }
    let of = |rank| {
        bundle
            .fonts
            .iter()
            .filter(move |f| f.rank == rank)
            .enumerate()
    };
    let mut made = Shelf {
        faces: Vec::new(),
        ranks: (0..4).map(|_| Vec::new()).collect(),
    };
    if of(0).count() > 32 || bundle.bytes.len() > 1_048_576 {
        return Err(refused(8, 0, 0, 0));
    }
    for (k, f) in of(0) {
        let name = piece(&bundle.bytes, f.name_place, f.name_length);
        let file = piece(&bundle.bytes, f.file_place, f.file_length);
        let (Some(name), Some(file)) = (name, file) else {
            return Err(refused(7, 0, k, k));
        };
        if !(1..=63).contains(&name.len()) || made.find(0, name).is_some() {
            return Err(refused(9, 0, k, k));
        }
        let Some((checksum, design, first, indices, widths)) = tfm(file) else {
            return Err(refused(7, 0, k, k));
        };
        made.faces.push(Face {
            name: name.to_vec(),
            checksum,
            design,
            first,
            indices,
            widths,
        });
    }
    for rank in 1..=4 {
        for (k, f) in of(rank as u32) {
            add(&mut made, rank, f, &bundle.bytes)
                .map_err(|(number, value)| refused(number, rank as u32, k, value))?;
        }
    }
    Ok(made)
}

fn add(made: &mut Shelf, rank: usize, f: &Font, bytes: &[u8]) -> Result<(), Denied> {
    let name = piece(bytes, f.name_place, f.name_length).ok_or((BAD_RECORD, 0))?;
    let file = piece(bytes, f.file_place, f.file_length).ok_or((BAD_RECORD, 0))?;
    let held: usize = made.ranks[rank - 1].iter().map(|v| v.file.len()).sum();
    if made.ranks[rank - 1].len() >= 8 || held + file.len() > 32_768 || made.count(rank) >= 4096 {
        return Err((8, 0));
    }
    if !(1..=63).contains(&name.len()) || made.find(rank, name).is_some() {
        return Err((9, 0));
    }
    let taken = made.vf(rank - 1, name, file)?;
    made.ranks[rank - 1].push(taken);
    Ok(())
}

// ---------------------------------------------------------------- the machine

enum Stop {
    // a cause, and its chain
    Fault(u32, Vec<Link>),
    // no room for a mark
    Full,
}

fn fault<T>(cause: u32) -> Result<T, Stop> {
    Err(Stop::Fault(cause, Vec::new()))
}

struct Marks {
    made: Vec<Mark>,
    room: usize,
}

impl Marks {
    fn put(&mut self, mark: Mark) -> Result<(), Stop> {
        if self.made.len() == self.room {
            return Err(Stop::Full);
        }
        self.made.push(mark);
        Ok(())
    }
}

enum Body<'a> {
    Page {
        stated: &'a Stated,
        page: usize,
    },
    Packet {
        font: usize,
        code: usize,
        size: i64,
        file: &'a Virtual,
    },
}

// h, v, w, x, y, z
type Registers = [i64; 6];

struct Level<'a> {
    shelf: &'a Shelf,
    // how many ranks the characters are asked of
    ranks: usize,
    body: Body<'a>,
    bytes: &'a [u8],
}

impl Level<'_> {
    fn measure(&self, b: i64) -> Result<i64, Stop> {
        match self.body {
            Body::Page { .. } => Ok(b),
            Body::Packet { size, .. } => scaled(b, size).ok_or(Stop::Fault(18, Vec::new())),
        }
    }

    fn choose(&self, number: u32) -> Result<(usize, i64), Stop> {
        match &self.body {
            Body::Page { stated, .. } => {
                let Some((_, size, name)) = stated.fonts.iter().find(|f| f.0 == number) else {
                    return fault(14);
                };
                match self.shelf.find(self.ranks, name) {
                    Some(font) => Ok((font, *size)),
                    None => fault(15),
                }
            }
            Body::Packet { file, .. } => match file.locals.iter().find(|l| l.0 == number) {
                Some(local) => self.local(local),
                None => fault(14),
            },
        }
    }

    fn local(&self, local: &(u32, usize, i64)) -> Result<(usize, i64), Stop> {
        let size = self.measure(local.2)?;
        if is_size(size) {
            Ok((local.1, size))
        } else {
            fault(18)
        }
    }

    fn linked<T>(&self, place: usize, r: Result<T, Stop>) -> Result<T, Stop> {
        r.map_err(|stop| match stop {
            Stop::Full => Stop::Full,
            Stop::Fault(cause, mut chain) => {
                if chain.len() < 65_535 {
                    chain.push(match self.body {
                        Body::Page { page, .. } => Link {
                            font: 65_535,
                            code: page as u32,
                            place,
                        },
                        Body::Packet { font, code, .. } => Link {
                            font: font as u32,
                            code: code as u32,
                            place,
                        },
                    });
                }
                Stop::Fault(cause, chain)
            }
        })
    }

    fn run(&self, start: usize, h: i64, v: i64, marks: &mut Marks) -> Result<(), Stop> {
        let mut r: Registers = [h, v, 0, 0, 0, 0];
        let mut frames: Vec<Registers> = Vec::new();
        let mut font: Option<(usize, i64)> = None;
        if let Body::Packet { file, .. } = &self.body {
            if let Some(first) = file.locals.first() {
                font = Some(self.linked(start, self.local(first))?);
            }
        }
        let mut at = start;
        loop {
            let Some(op) = self.bytes.get(at).copied() else {
                return match self.body {
                    Body::Page { .. } => self.linked(self.bytes.len(), fault(12)),
                    Body::Packet { .. } if frames.is_empty() => Ok(()),
                    Body::Packet { .. } => self.linked(self.bytes.len(), fault(13)),
                };
            };
            let Some(length) = self.length(at) else {
                return self.linked(at, fault(12));
            };
            if op == 140 && matches!(self.body, Body::Page { .. }) {
                return if frames.is_empty() {
                    Ok(())
                } else {
                    self.linked(at, fault(13))
                };
            }
            let done = self.step(at, usize::from(op), &mut r, &mut frames, &mut font, marks);
            self.linked(at, done)?;
            at += length;
        }
    }

    // How long the command at a place is; none where the bytes end before it does.
    fn length(&self, at: usize) -> Option<usize> {
        let b = self.bytes;
        let op = usize::from(b[at]);
        let n = match op {
            128..=131 => op - 126,
            132 | 137 => 9,
            133..=136 => op - 131,
            143..=146 => op - 141,
            148..=151 => op - 146,
            153..=156 => op - 151,
            157..=160 => op - 155,
            162..=165 => op - 160,
            167..=170 => op - 165,
            235..=238 => op - 233,
            239..=242 => {
                let w = op - 238;
                if at + 1 + w > b.len() {
                    return None;
                }
                1 + w + unsigned(b, at + 1, w) as usize
            }
            243..=246 => {
                let w = op - 242;
                if at + w + 15 > b.len() {
                    return None;
                }
                w + 15 + usize::from(b[at + w + 13]) + usize::from(b[at + w + 14])
            }
            _ => 1,
        };
        (at + n <= b.len()).then_some(n)
    }

    fn step(
        &self,
        at: usize,
        op: usize,
        r: &mut Registers,
        frames: &mut Vec<Registers>,
        font: &mut Option<(usize, i64)>,
        marks: &mut Marks,
    ) -> Result<(), Stop> {
        let parameter = |first: usize| signed(self.bytes, at + 1, op - first + 1);
        // codes and font numbers: unsigned below four bytes
        let unsigned_to_3 = |first: usize| {
            let w = op - first + 1;
            if w == 4 {
                signed(self.bytes, at + 1, 4)
            } else {
                i64::from(unsigned(self.bytes, at + 1, w))
            }
        };
        match op {
            0..=127 => self.character(op as i64, true, r, *font, marks),
            128..=131 => self.character(unsigned_to_3(128), true, r, *font, marks),
            133..=136 => self.character(unsigned_to_3(133), false, r, *font, marks),
            132 | 137 => {
                let height = self.measure(signed(self.bytes, at + 1, 4))?;
                let width = self.measure(signed(self.bytes, at + 5, 4))?;
                if height > 0 && width > 0 {
                    marks.put(Mark {
                        kind: 2,
                        height: height as u32,
                        width: width as u32,
                        h: r[0] as i32,
                        v: r[1] as i32,
                        ..Mark::default()
                    })?;
                }
                if op == 132 {
                    advance(&mut r[0], width)?;
                }
                Ok(())
            }
            138 | 239..=242 => Ok(()),
            141 => {
                if frames.len() == 64 {
                    return fault(13);
                }
                frames.push(*r);
                Ok(())
            }
            142 => match frames.pop() {
                Some(saved) => {
                    *r = saved;
                    Ok(())
                }
                None => fault(13),
            },
            143..=146 => {
                let b = self.measure(parameter(143))?;
                advance(&mut r[0], b)
            }
            157..=160 => {
                let b = self.measure(parameter(157))?;
                advance(&mut r[1], b)
            }
            147..=156 | 161..=170 => {
                // the register, and the axis that it moves along
                let (k, first, axis) = match op {
                    147..=151 => (2, 147, 0),
                    152..=156 => (3, 152, 0),
                    161..=165 => (4, 161, 1),
                    _ => (5, 166, 1),
                };
                if op > first {
                    r[k] = self.measure(parameter(first + 1))?;
                }
                let b = r[k];
                advance(&mut r[axis], b)
            }
            171..=234 => {
                *font = Some(self.choose((op - 171) as u32)?);
                Ok(())
            }
            235..=238 => {
                *font = Some(self.choose(unsigned(self.bytes, at + 1, op - 234))?);
                Ok(())
            }
            243..=246 if matches!(self.body, Body::Page { .. }) => Ok(()),
            _ => fault(11),
        }
    }

    fn character(
        &self,
        code: i64,
        moves: bool,
        r: &mut Registers,
        font: Option<(usize, i64)>,
        marks: &mut Marks,
    ) -> Result<(), Stop> {
        let Some((font, size)) = font else {
            return fault(14);
        };
        if !(0..256).contains(&code) {
            return fault(16);
        }
        let width = character(
            self.shelf,
            self.ranks,
            font,
            size,
            code as usize,
            r[0],
            r[1],
            marks,
        )?;
        if moves {
            advance(&mut r[0], width)?;
        }
        Ok(())
    }
}

fn advance(register: &mut i64, by: i64) -> Result<(), Stop> {
    let to = *register + by;
    if !in_range(to) {
        return fault(17);
    }
    *register = to;
    Ok(())
}

// A character of the shelf with so many ranks; answers its width.
#[allow(clippy::too_many_arguments)]
fn character(
    shelf: &Shelf,
    ranks: usize,
    font: usize,
    size: i64,
    code: usize,
    h: i64,
    v: i64,
    marks: &mut Marks,
) -> Result<i64, Stop> {
    if font >= shelf.count(ranks) {
        return fault(14);
    }
    if !is_size(size) {
        return fault(18);
    }
    if !in_range(h) || !in_range(v) {
        return fault(17);
    }
    if font < shelf.faces.len() {
        let Some(width) = shelf.width(font, size, code) else {
            return fault(16);
        };
        marks.put(Mark {
            kind: 1,
            face: font as u32,
            size: size as u32,
            code: code as u32,
            h: h as i32,
            v: v as i32,
            ..Mark::default()
        })?;
        return Ok(width);
    }
    let mut own = font - shelf.faces.len();
    let mut rank = 0;
    while own >= shelf.ranks[rank].len() {
        own -= shelf.ranks[rank].len();
        rank += 1;
    }
    let file = &shelf.ranks[rank][own];
    let Some(packet) = &file.packets[code] else {
        return fault(16);
    };
    let level = Level {
        shelf,
        ranks: rank,
        body: Body::Packet {
            font,
            code,
            size,
            file,
        },
        bytes: &file.file[..packet.start + packet.length],
    };
    level.run(packet.start, h, v, marks)?;
    Ok(scaled(packet.width, size).unwrap())
}

// ---------------------------------------------------------------- calls

fn refused(step: u32, index: usize, (number, value): Denied) -> Answer {
    Answer {
        number,
        step,
        index,
        value,
        ..Answer::default()
    }
}

pub fn check(document: &[u8], stated: &mut Document) -> Answer {
    match legal(document) {
        Ok(found) => {
            *stated = found.record;
            Answer::default()
        }
        Err(denied) => refused(STEP_DOCUMENT, 0, denied),
    }
}

pub fn page(document: &[u8], page: usize, found: &mut Page) -> Answer {
    let stated = match legal(document) {
        Ok(stated) => stated,
        Err(denied) => return refused(STEP_PAGE, 0, denied),
    };
    match page_place(document, &stated, page) {
        Some(place) => {
            found.place = place;
            for (k, count) in found.counts.iter_mut().enumerate() {
                *count = signed(document, place + 1 + 4 * k, 4) as i32;
            }
            Answer::default()
        }
        None => refused(STEP_PAGE, 0, (21, 0)),
    }
}

pub fn fonts(bundle: &Bundle) -> Answer {
    shelf(bundle).err().unwrap_or_default()
}

// The marks of a page and how it ends, with room for so many.
fn run_page(
    shelf: &Shelf,
    document: &[u8],
    stated: &Stated,
    page: usize,
    room: usize,
) -> Result<(Vec<Mark>, Result<(), Stop>), Denied> {
    let place = page_place(document, stated, page).ok_or((21, 0))?;
    let level = Level {
        shelf,
        ranks: 4,
        body: Body::Page { stated, page },
        bytes: &document[..stated.record.post],
    };
    let mut marks = Marks {
        made: Vec::new(),
        room,
    };
    let ended = level.run(place + 45, 0, 0, &mut marks);
    Ok((marks.made, ended))
}

fn put_links(chain: &[Link], links: &mut [Link]) {
    for (link, from) in links.iter_mut().zip(chain) {
        *link = *from;
    }
}

// The answer to a page's ending.
fn ended(index: usize, stop: Stop, links: &mut [Link]) -> Answer {
    match stop {
        Stop::Full => refused(STEP_PAGE, index, (19, 0)),
        Stop::Fault(cause, chain) => {
            put_links(&chain, links);
            Answer {
                links: chain.len(),
                ..refused(STEP_PAGE, index, (cause, 0))
            }
        }
    }
}

pub fn read(
    bundle: &Bundle,
    document: &[u8],
    page: usize,
    links: &mut [Link],
    marks: &mut [Mark],
) -> Answer {
    let shelf = match shelf(bundle) {
        Ok(shelf) => shelf,
        Err(answer) => return answer,
    };
    let run =
        legal(document).and_then(|stated| run_page(&shelf, document, &stated, page, marks.len()));
    let (made, end) = match run {
        Ok(run) => run,
        Err(denied) => return refused(STEP_PAGE, 0, denied),
    };
    marks[..made.len()].copy_from_slice(&made);
    let answer = match end {
        Ok(()) => Answer::default(),
        Err(stop) => ended(0, stop, links),
    };
    Answer {
        marks: made.len(),
        ..answer
    }
}

// What a copy has come to.
struct Copy {
    mag: u32,
    l: u32,
    u: u32,
    used: usize,
    last: u32,
    count: usize,
    // face and size, in the order of their numbers
    pairs: Vec<(u32, u32)>,
}

fn push4(out: &mut Vec<u8>, n: u32) {
    out.extend_from_slice(&n.to_be_bytes());
}

fn push_move(out: &mut Vec<u8>, first: u8, by: i64) {
    if by == 0 {
        return;
    }
    let w = (1..4)
        .find(|w| (-(1i64 << (8 * w - 1))..1i64 << (8 * w - 1)).contains(&by))
        .unwrap_or(4);
    out.push(first + w as u8 - 1);
    out.extend_from_slice(&(by as i32).to_be_bytes()[4 - w as usize..]);
}

fn push_definition(out: &mut Vec<u8>, shelf: &Shelf, number: usize, (face, size): (u32, u32)) {
    let f = &shelf.faces[face as usize];
    out.push(243);
    out.push(number as u8);
    push4(out, f.checksum);
    push4(out, size);
    push4(out, f.design / 16);
    out.push(0);
    out.push(f.name.len() as u8);
    out.extend_from_slice(&f.name);
}

fn push_units(out: &mut Vec<u8>, mag: u32) {
    push4(out, 25_400_000);
    push4(out, 473_628_672);
    push4(out, mag);
}

impl Copy {
    // The bytes of a page, and the pairs with it.
    fn page(&self, shelf: &Shelf, counts: &[u8], marks: &[Mark]) -> (Vec<u8>, Vec<(u32, u32)>) {
        let mut out = vec![139];
        out.extend_from_slice(counts);
        push4(&mut out, self.last);
        let mut pairs = self.pairs.clone();
        let (mut h, mut v) = (0, 0);
        let mut selected = None;
        for m in marks {
            push_move(&mut out, 143, i64::from(m.h) - h);
            push_move(&mut out, 157, i64::from(m.v) - v);
            (h, v) = (i64::from(m.h), i64::from(m.v));
            if m.kind == 2 {
                out.push(137);
                push4(&mut out, m.height);
                push4(&mut out, m.width);
                continue;
            }
            let pair = (m.face, m.size);
            let k = pairs.iter().position(|p| *p == pair).unwrap_or_else(|| {
                pairs.push(pair);
                push_definition(&mut out, shelf, pairs.len() - 1, pair);
                pairs.len() - 1
            });
            if selected != Some(k) {
                out.push((171 + k) as u8);
                selected = Some(k);
            }
            out.push(133);
            out.push(m.code as u8);
        }
        out.push(140);
        (out, pairs)
    }

    fn closing(&self, shelf: &Shelf) -> Vec<u8> {
        let mut out = vec![248];
        push4(&mut out, self.last);
        push_units(&mut out, self.mag);
        push4(&mut out, self.l);
        push4(&mut out, self.u);
        out.extend_from_slice(&[0, 0]);
        out.extend_from_slice(&(self.count as u16).to_be_bytes());
        for (k, pair) in self.pairs.iter().enumerate() {
            push_definition(&mut out, shelf, k, *pair);
        }
        out.push(249);
        push4(&mut out, self.used as u32);
        out.push(2);
        out.extend_from_slice(&[223; 4]);
        while (self.used + out.len()) % 4 != 0 {
            out.push(223);
        }
        out
    }

    fn add(
        &mut self,
        shelf: &Shelf,
        document: &[u8],
        page: usize,
        room: usize,
        index: usize,
        links: &mut [Link],
        out: &mut [u8],
    ) -> Result<(), Answer> {
        let denied = |d| refused(STEP_PAGE, index, d);
        let stated = legal(document).map_err(denied)?;
        if stated.record.mag != self.mag {
            return Err(denied((22, 0)));
        }
        let (marks, end) = run_page(shelf, document, &stated, page, room).map_err(denied)?;
        if let Err(stop) = end {
            return Err(ended(index, stop, links));
        }
        let place = page_place(document, &stated, page).unwrap();
        let counts = &document[place + 1..place + 41];
        let (bytes, pairs) = self.page(shelf, counts, &marks);
        if pairs.len() > 64 {
            return Err(denied((23, 0)));
        }
        let next = Copy {
            used: self.used + bytes.len(),
            last: self.used as u32,
            count: self.count + 1,
            pairs,
            ..*self
        };
        let whole = next.used + next.closing(shelf).len();
        if next.count > 65_535 || whole > out.len().min(MOST_OUTPUT) {
            return Err(denied((24, 0)));
        }
        out[self.used..next.used].copy_from_slice(&bytes);
        *self = next;
        Ok(())
    }
}

fn copy_all(
    shelf: &Shelf,
    opening: &[u8],
    documents: &[u8],
    sources: &[Source],
    room: usize,
    links: &mut [Link],
    out: &mut [u8],
) -> Result<usize, Answer> {
    let stated = legal(opening)
        .map_err(|d| refused(STEP_DOCUMENT, 0, d))?
        .record;
    if out.len() < 56 {
        return Err(refused(STEP_DOCUMENT, 0, (24, 0)));
    }
    let mut front = vec![247, 2];
    push_units(&mut front, stated.mag);
    front.push(0);
    out[..15].copy_from_slice(&front);
    let mut copy = Copy {
        mag: stated.mag,
        l: stated.l,
        u: stated.u,
        used: 15,
        last: NO_PAGE,
        count: 0,
        pairs: Vec::new(),
    };
    for (k, s) in sources.iter().enumerate() {
        let document = piece(documents, s.place, s.length)
            .ok_or_else(|| refused(STEP_PAGE, k, (BAD_RECORD, 0)))?;
        copy.add(shelf, document, s.page, room, k, links, out)?;
    }
    let closing = copy.closing(shelf);
    let length = copy.used + closing.len();
    if length > out.len().min(MOST_OUTPUT) {
        return Err(refused(STEP_CLOSING, 0, (24, 0)));
    }
    out[copy.used..length].copy_from_slice(&closing);
    Ok(length)
}

pub fn copy(
    bundle: &Bundle,
    opening: &[u8],
    documents: &[u8],
    sources: &[Source],
    room: usize,
    links: &mut [Link],
    out: &mut [u8],
) -> Answer {
    let made = shelf(bundle)
        .and_then(|shelf| copy_all(&shelf, opening, documents, sources, room, links, out));
    match made {
        Ok(length) => Answer {
            length,
            ..Answer::default()
        },
        Err(answer) => answer,
    }
}

pub fn flatten(
    bundle: &Bundle,
    document: &[u8],
    room: usize,
    links: &mut [Link],
    out: &mut [u8],
) -> Answer {
    let pages = legal(document).map_or(0, |stated| stated.record.pages as usize);
    let sources: Vec<Source> = (1..=pages)
        .map(|page| Source {
            place: 0,
            length: document.len(),
            page,
        })
        .collect();
    copy(bundle, document, document, &sources, room, links, out)
}
