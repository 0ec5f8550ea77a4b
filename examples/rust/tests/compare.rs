// The library and the second implementation on the same inputs: answers, chains, marks and output bytes are to be equal.
use fulatzebi_caller::calls::{self, Answer, Bundle, Document, Font, Link, Mark, Page, Source};
use fulatzebi_caller::random::Random;
use fulatzebi_caller::{generate, model};
use std::collections::BTreeMap;

const CASES: u64 = 12_000;

// What the lists hold before a call; no call makes any of it.
const MARK: Mark = Mark {
    kind: 77,
    face: 7,
    size: 7,
    code: 7,
    height: 7,
    width: 7,
    h: -7,
    v: -7,
};

const LINK: Link = Link {
    font: 777_777,
    code: 7,
    place: 7,
};

// How often each number was answered, by step.
#[derive(Default)]
struct Seen(BTreeMap<(u32, u32), usize>);

impl Seen {
    fn note(&mut self, answer: &Answer) {
        *self.0.entry((answer.step, answer.number)).or_default() += 1;
    }

    fn has(&self, number: u32) -> bool {
        self.0.keys().any(|k| k.1 == number)
    }
}

fn check(what: &str, document: &[u8], seen: &mut Seen) -> usize {
    let untouched = Document {
        mag: 7,
        ..Document::default()
    };
    let (mut a, mut b) = (untouched, untouched);
    let (x, y) = (
        calls::check(document, &mut a),
        model::check(document, &mut b),
    );
    assert_eq!((x, a), (y, b), "{what}: check");
    seen.note(&x);
    let pages = if x.number == 0 { a.pages as usize } else { 1 };
    for page in [0, 1, pages, pages + 1, usize::MAX] {
        let (mut a, mut b) = (Page::default(), Page::default());
        let (x, y) = (
            calls::page(document, page, &mut a),
            model::page(document, page, &mut b),
        );
        assert_eq!((x, a), (y, b), "{what}: page {page}");
    }
    pages
}

fn read(
    what: &str,
    bundle: &Bundle,
    document: &[u8],
    page: usize,
    marks: usize,
    links: usize,
    seen: &mut Seen,
) -> Answer {
    let (mut m, mut l) = (vec![MARK; marks], vec![LINK; links]);
    let (mut n, mut k) = (m.clone(), l.clone());
    let x = calls::read(bundle, document, page, &mut l, &mut m);
    let y = model::read(bundle, document, page, &mut k, &mut n);
    assert_eq!(
        x, y,
        "{what}: read {page} with {marks} marks and {links} links"
    );
    assert!(m == n, "{what}: marks of page {page} with {marks} marks");
    assert_eq!(l, k, "{what}: links of page {page}");
    seen.note(&x);
    x
}

fn copy(
    what: &str,
    bundle: &Bundle,
    opening: &[u8],
    documents: &[u8],
    sources: &[Source],
    marks: usize,
    room: usize,
    seen: &mut Seen,
) -> Answer {
    let (mut out, mut l) = (vec![165; room], vec![LINK; 4]);
    let (mut wanted, mut k) = (out.clone(), l.clone());
    let x = calls::copy(bundle, opening, documents, sources, marks, &mut l, &mut out);
    let y = model::copy(
        bundle,
        opening,
        documents,
        sources,
        marks,
        &mut k,
        &mut wanted,
    );
    assert_eq!(x, y, "{what}: copy into {room}");
    assert!(out == wanted, "{what}: output of copy into {room}");
    assert_eq!(l, k, "{what}: links of copy");
    seen.note(&x);
    x
}

fn flatten(
    what: &str,
    bundle: &Bundle,
    document: &[u8],
    marks: usize,
    room: usize,
    seen: &mut Seen,
) -> (Answer, Vec<u8>) {
    let (mut out, mut l) = (vec![165; room], vec![LINK; 4]);
    let (mut wanted, mut k) = (out.clone(), l.clone());
    let x = calls::flatten(bundle, document, marks, &mut l, &mut out);
    let y = model::flatten(bundle, document, marks, &mut k, &mut wanted);
    assert_eq!(x, y, "{what}: flatten into {room}");
    assert!(out == wanted, "{what}: output of flatten into {room}");
    assert_eq!(l, k, "{what}: links of flatten");
    seen.note(&x);
    (x, out)
}

fn compare(seed: u64, seen: &mut Seen) {
    let what = &format!("case {seed}");
    let case = generate::case(seed);
    let (bundle, random) = (&case.bundle, &mut Random::new(seed ^ 0x5555_0000));
    let (x, y) = (calls::fonts(bundle), model::fonts(bundle));
    assert_eq!(x, y, "{what}: fonts");
    seen.note(&x);
    let mut all = Vec::new();
    let mut sources = Vec::new();
    for document in &case.documents {
        let pages = check(what, document, seen);
        for page in 1..=pages.min(4) {
            let whole = read(what, bundle, document, page, 3000, 6, seen);
            let marks = [whole.marks, whole.marks.saturating_sub(1), random.below(4)];
            read(
                what,
                bundle,
                document,
                page,
                *random.pick(&marks),
                random.below(4),
                seen,
            );
            sources.push(Source {
                place: all.len(),
                length: document.len(),
                page,
            });
        }
        let (whole, _) = flatten(what, bundle, document, 3000, 60_000, seen);
        if whole.number == 0 {
            let less = 1 + random.below(whole.length);
            flatten(what, bundle, document, 3000, whole.length, seen);
            flatten(what, bundle, document, 3000, whole.length - less, seen);
        }
        all.extend_from_slice(document);
    }
    if random.one_in(20) && !sources.is_empty() {
        let k = random.below(sources.len());
        match random.below(3) {
            0 => sources[k].place = *random.pick(&[usize::MAX, all.len(), 1]),
            1 => sources[k].length = *random.pick(&[usize::MAX, all.len() + 1, 60]),
            _ => sources[k].page = random.below(6),
        }
    }
    let mixed: Vec<Source> = (0..random.below(7))
        .filter_map(|_| (!sources.is_empty()).then(|| *random.pick(&sources)))
        .collect();
    copy(
        what,
        bundle,
        &case.documents[0],
        &all,
        &mixed,
        3000,
        100_000,
        seen,
    );
}

#[test]
fn made_up_cases_agree() {
    let mut seen = Seen::default();
    for seed in 0..CASES {
        compare(seed, &mut seen);
    }
    // Every refusal that these calls can answer has come up, and thousands were accepted.
    for number in (1..=19).chain([21, 22, 24, calls::BAD_RECORD]) {
        assert!(seen.has(number), "number {number} has not come up");
    }
    assert!(seen.0[&(0, 0)] > 20_000, "too few were accepted");
    for ((step, number), n) in &seen.0 {
        println!("step {step} number {number:3}: {n}");
    }
}

fn definition(out: &mut Vec<u8>, number: u32, size: u32, name: &[u8]) {
    out.push(246);
    out.extend_from_slice(&number.to_be_bytes());
    out.extend_from_slice(&[0; 4]);
    out.extend_from_slice(&size.to_be_bytes());
    out.extend_from_slice(&[0, 10, 0, 0, 0, name.len() as u8]);
    out.extend_from_slice(name);
}

// A VF file whose local font is as large as it is, and whose packet of code 65 is this.
fn vf(below: &[u8], packet: &[u8]) -> Vec<u8> {
    let mut out = vec![247, 202, 0];
    out.extend_from_slice(&[0; 8]);
    definition(&mut out, 0, 1 << 20, below);
    out.push(242);
    out.extend_from_slice(&(packet.len() as u32).to_be_bytes());
    out.extend_from_slice(&[0, 0, 0, 65, 0, 16, 0, 0]);
    out.extend_from_slice(packet);
    out.push(248);
    out
}

// A TFM file with code 65, half as wide as the size.
const TFM: [u8; 44] = [
    0, 11, 0, 2, 0, 65, 0, 65, 0, 2, 0, 0, 0, 0, 0, 0, 0, 0, 0, 0, 0, 0, 0, 0, 0, 0, 0, 0, 0, 160,
    0, 0, 1, 0, 0, 0, 0, 0, 0, 0, 0, 8, 0, 0,
];

// Four ranks over one face, each with a font whose code 65 is this packet of the font below.
fn tower(packets: [&[u8]; 4]) -> Bundle {
    let names: [&[u8]; 5] = [b"face", b"one", b"two", b"three", b"four"];
    let mut pieces = vec![(0, names[0].to_vec(), TFM.to_vec())];
    for (k, packet) in packets.iter().enumerate() {
        pieces.push((k as u32 + 1, names[k + 1].to_vec(), vf(names[k], packet)));
    }
    generate::bundle(&mut Random::new(1), &pieces)
}

fn page_of(name: &[u8], commands: &[u8]) -> Vec<u8> {
    generate::document(
        &mut Random::new(2),
        1000,
        &[(0, 655_360, name.to_vec())],
        &[[&[171], commands, &[140]].concat()],
    )
}

// Hostile nesting: each packet sets the character below sixteen times, so that one command makes 65,536 marks.
#[test]
fn towers_of_packets_agree() {
    let mut seen = Seen::default();
    let bundle = tower([&[65; 16]; 4]);
    let document = page_of(b"four", &[65]);
    for room in [65_536, 65_535, 1, 0] {
        read("tower", &bundle, &document, 1, room, 6, &mut seen);
    }
    // A fault at each depth, whose chain goes through all the packets above it.
    for depth in 0..4 {
        for (fault, number) in [
            (vec![65, 142], 13),
            (vec![65, 66], 16),
            (vec![140], 11),
            (vec![146, 0], 12),
            (vec![65, 141], 13),
            (vec![146, 1, 0, 0, 0], 18),
            (vec![172], 14),
            (vec![130, 1, 0, 0], 16),
        ] {
            let mut packets: [&[u8]; 4] = [&[65, 138, 65]; 4];
            packets[depth] = &fault;
            let bundle = tower(packets);
            for links in 0..=6 {
                let x = read("fault", &bundle, &document, 1, 100, links, &mut seen);
                assert_eq!((x.number, x.links), (number, 5 - depth), "depth {depth}");
            }
            flatten("fault", &bundle, &document, 100, 10_000, &mut seen);
        }
    }
}

// 64 saved frames are the most, in a page and in a packet.
#[test]
fn many_frames_agree() {
    let mut seen = Seen::default();
    for n in [63, 64, 65, 66] {
        let frames = [vec![141; n], vec![65], vec![142; n]].concat();
        let x = read(
            "frames",
            &tower([&[65]; 4]),
            &page_of(b"face", &frames),
            1,
            9,
            9,
            &mut seen,
        );
        assert_eq!(x.number, if n > 64 { 13 } else { 0 });
        let y = read(
            "frames",
            &tower([&frames, &[65], &[65], &[65]]),
            &page_of(b"four", &[65]),
            1,
            9,
            9,
            &mut seen,
        );
        assert_eq!((y.number, y.links), if n > 64 { (13, 5) } else { (0, 0) });
    }
}

// 64 pairs of face and size are the most in a file.
#[test]
fn many_pairs_agree() {
    let mut seen = Seen::default();
    let bundle = tower([&[65]; 4]);
    for n in [63u32, 64, 65] {
        let fonts: Vec<(u32, i64, Vec<u8>)> = (0..n)
            .map(|k| (k, 100 + i64::from(k), b"face".to_vec()))
            .collect();
        let mut page: Vec<u8> = (0..n).flat_map(|k| [235, k as u8, 65]).collect();
        page.push(140);
        let document = generate::document(&mut Random::new(3), 1000, &fonts, &[page]);
        let (x, _) = flatten("pairs", &bundle, &document, 100, 10_000, &mut seen);
        assert_eq!(x.number, if n > 64 { 23 } else { 0 });
    }
}

// 65,535 pages are the most, and a long document has thousands.
#[test]
fn many_pages_agree() {
    let mut seen = Seen::default();
    let bundle = tower([&[65]; 4]);
    let document = generate::document(&mut Random::new(4), 1000, &[], &[vec![140]]);
    let sources = vec![
        Source {
            place: 0,
            length: document.len(),
            page: 1
        };
        65_536
    ];
    for n in [65_535, 65_536] {
        let x = copy(
            "pages",
            &bundle,
            &document,
            &document,
            &sources[..n],
            0,
            4_000_000,
            &mut seen,
        );
        assert_eq!(x.number, if n > 65_535 { 24 } else { 0 });
    }
    let pages: Vec<Vec<u8>> = (0..3000)
        .map(|k| [vec![171], vec![65; k % 40], vec![140]].concat())
        .collect();
    let document = generate::document(
        &mut Random::new(5),
        1000,
        &[(0, 655_360, b"two".to_vec())],
        &pages,
    );
    let (x, file) = flatten("pages", &bundle, &document, 100, 1_000_000, &mut seen);
    assert_eq!(x.number, 0);
    // The file is flat: over the face alone it comes out the same.
    let face = Bundle {
        bytes: bundle.bytes.clone(),
        fonts: bundle.fonts[..1].to_vec(),
    };
    let (again, same) = flatten("again", &face, &file[..x.length], 100, x.length, &mut seen);
    assert_eq!(again, x);
    assert!(same == file[..x.length]);
}

// Limits of a bundle: 32 TFM files, 1,048,576 bytes, eight files of 32,768 bytes together on a rank.
#[test]
fn large_bundles_agree() {
    for faces in [31, 32, 33] {
        let pieces: Vec<(u32, Vec<u8>, Vec<u8>)> = (0..faces)
            .map(|k| (0, vec![b'f', k], TFM.to_vec()))
            .collect();
        let bundle = generate::bundle(&mut Random::new(6), &pieces);
        assert_eq!(calls::fonts(&bundle), model::fonts(&bundle));
        assert_eq!(calls::fonts(&bundle).number, if faces > 32 { 8 } else { 0 });
    }
    for length in [1_048_576, 1_048_577] {
        let mut bundle = tower([&[65]; 4]);
        bundle.bytes.resize(length, 0);
        assert_eq!(calls::fonts(&bundle), model::fonts(&bundle));
        assert_eq!(
            calls::fonts(&bundle).number,
            if length > 1_048_576 { 8 } else { 0 }
        );
    }
    for (files, size, number) in [
        (8, 4000, 0),
        (9, 3000, 8),
        (7, 4600, 0),
        (8, 4096, 0),
        (8, 4097, 8),
    ] {
        let mut pieces = vec![(0, b"face".to_vec(), TFM.to_vec())];
        for k in 0..files {
            let empty = vf(b"face", &[]).len();
            pieces.push((2, vec![b'v', k], vf(b"face", &vec![138; size - empty])));
        }
        let bundle = generate::bundle(&mut Random::new(7), &pieces);
        assert_eq!(calls::fonts(&bundle), model::fonts(&bundle));
        assert_eq!(
            calls::fonts(&bundle).number,
            number,
            "{files} files of {size}"
        );
    }
}

// Lists without entries, given by NULL.
#[test]
fn empty_lists_are_allowed() {
    let empty = Bundle::default();
    assert_eq!(calls::fonts(&empty), Answer::default());
    let document = generate::document(&mut Random::new(8), 1000, &[], &[vec![140]]);
    let x = calls::read(&empty, &document, 1, &mut [], &mut []);
    assert_eq!(x, Answer::default());
    let y = calls::flatten(&empty, &[], 0, &mut [], &mut []);
    assert_eq!((y.number, y.step, y.value), (1, calls::STEP_DOCUMENT, 0));
    let font = Font::default();
    let z = calls::fonts(&Bundle {
        bytes: vec![],
        fonts: vec![font],
    });
    assert_eq!((z.number, z.step, z.index), (9, calls::STEP_FONT, 0));
}

// Two threads at once, each with lists of its own.
#[test]
fn calls_from_threads_agree() {
    let threads: Vec<_> = (0..4)
        .map(|k| {
            std::thread::spawn(move || {
                (0..300).for_each(|n| compare(1_000_000 + 1000 * k + n, &mut Seen::default()))
            })
        })
        .collect();
    threads.into_iter().for_each(|t| t.join().unwrap());
}

// The documents and fonts that the program is tested on, as its command lines name them.
#[test]
fn real_documents_agree() {
    let folder =
        std::path::Path::new(env!("CARGO_MANIFEST_DIR")).join("../../crates/commandlines/data");
    let load = |name: &str| std::fs::read(folder.join(name)).unwrap();
    let mut seen = Seen::default();
    let mut files = 0;
    for line in std::fs::read_to_string(folder.join("commands"))
        .unwrap()
        .lines()
    {
        let words: Vec<&str> = line.split(' ').collect();
        if words[0] != "flatten" || !words[1].ends_with(".dvi") {
            continue;
        }
        let mut pieces = Vec::new();
        let mut rank = 0;
        for option in words.windows(2) {
            let of = match option[0] {
                "--tfm" => 0,
                "--rank" => {
                    rank += 1;
                    rank
                }
                _ => continue,
            };
            for font in option[1].split(',') {
                let (name, file) = font.split_once('=').unwrap();
                let mut bytes = load(file);
                if of == 0 {
                    bytes.truncate(4 * (256 * usize::from(bytes[0]) + usize::from(bytes[1])));
                }
                pieces.push((of, name.as_bytes().to_vec(), bytes));
            }
        }
        let bundle = generate::bundle(&mut Random::new(9), &pieces);
        let document = load(words[1]);
        let pages = check(line, &document, &mut seen);
        for page in 1..=pages {
            read(line, &bundle, &document, page, 5000, 5, &mut seen);
        }
        let (x, _) = flatten(line, &bundle, &document, 5000, 100_000, &mut seen);
        files += usize::from(x.number == 0);
    }
    assert!(files >= 5, "only {files} files were made");
}
