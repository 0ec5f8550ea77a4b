// The library's calls, as include/fulatzebi.h has them, and safe functions over them.
use std::ffi::c_void;

#[repr(C)]
#[derive(Clone, Copy, Debug, Default, Eq, PartialEq)]
pub struct Font {
    pub rank: u32,
    pub name_place: usize,
    pub name_length: usize,
    pub file_place: usize,
    pub file_length: usize,
}

#[repr(C)]
#[derive(Clone, Copy, Debug, Default, Eq, PartialEq)]
pub struct Source {
    pub place: usize,
    pub length: usize,
    pub page: usize,
}

#[repr(C)]
#[derive(Clone, Copy, Debug, Default, Eq, PartialEq)]
pub struct Document {
    pub mag: u32,
    pub l: u32,
    pub u: u32,
    pub pages: u32,
    pub last: u32,
    pub post: usize,
    pub end: usize,
}

#[repr(C)]
#[derive(Clone, Copy, Debug, Default, Eq, PartialEq)]
pub struct Page {
    pub place: usize,
    pub counts: [i32; 10],
}

#[repr(C)]
#[derive(Clone, Copy, Debug, Default, Eq, PartialEq)]
pub struct Mark {
    pub kind: u32,
    pub face: u32,
    pub size: u32,
    pub code: u32,
    pub height: u32,
    pub width: u32,
    pub h: i32,
    pub v: i32,
}

#[repr(C)]
#[derive(Clone, Copy, Debug, Default, Eq, PartialEq)]
pub struct Link {
    pub font: u32,
    pub code: u32,
    pub place: usize,
}

#[repr(C)]
#[derive(Clone, Copy, Debug, Default, Eq, PartialEq)]
pub struct Answer {
    pub number: u32,
    pub step: u32,
    pub rank: u32,
    pub index: usize,
    pub value: usize,
    pub links: usize,
    pub marks: usize,
    pub length: usize,
}

pub const STEP_CALL: u32 = 0;
pub const STEP_FONT: u32 = 1;
pub const STEP_DOCUMENT: u32 = 2;
pub const STEP_PAGE: u32 = 3;
pub const STEP_CLOSING: u32 = 4;
pub const BAD_RECORD: u32 = 101;

extern "C" {
    fn fulatzebi_check(
        document: *const u8,
        length: usize,
        stated: *mut Document,
        answer: *mut Answer,
    );
    fn fulatzebi_page(
        document: *const u8,
        length: usize,
        page: usize,
        place: *mut Page,
        answer: *mut Answer,
    );
    fn fulatzebi_fonts(
        bytes: *const u8,
        length: usize,
        fonts: *const Font,
        count: usize,
        answer: *mut Answer,
    );
    fn fulatzebi_read(
        bytes: *const u8,
        length: usize,
        fonts: *const Font,
        count: usize,
        document: *const u8,
        document_length: usize,
        page: usize,
        links: *mut Link,
        link_count: usize,
        marks: *mut Mark,
        mark_count: usize,
        answer: *mut Answer,
    );
    fn fulatzebi_flatten(
        bytes: *const u8,
        length: usize,
        fonts: *const Font,
        count: usize,
        document: *const u8,
        document_length: usize,
        page_marks: usize,
        links: *mut Link,
        link_count: usize,
        out: *mut u8,
        out_length: usize,
        answer: *mut Answer,
    );
    fn fulatzebi_copy(
        bytes: *const u8,
        length: usize,
        fonts: *const Font,
        count: usize,
        opening: *const u8,
        opening_length: usize,
        documents: *const u8,
        documents_length: usize,
        sources: *const Source,
        source_count: usize,
        page_marks: usize,
        links: *mut Link,
        link_count: usize,
        out: *mut u8,
        out_length: usize,
        answer: *mut Answer,
    );
}

// The bytes of names and files, and the fonts in them.
#[derive(Clone, Debug, Default)]
pub struct Bundle {
    pub bytes: Vec<u8>,
    pub fonts: Vec<Font>,
}

pub fn check(document: &[u8], stated: &mut Document) -> Answer {
    let mut answer = Answer::default();
    // SAFETY: each pointer is that of a slice with its length, or of a record, and none is used by another.
    unsafe { fulatzebi_check(document.as_ptr(), document.len(), stated, &mut answer) };
    answer
}

pub fn page(document: &[u8], page: usize, place: &mut Page) -> Answer {
    let mut answer = Answer::default();
    // SAFETY: as in `check`.
    unsafe { fulatzebi_page(document.as_ptr(), document.len(), page, place, &mut answer) };
    answer
}

pub fn fonts(bundle: &Bundle) -> Answer {
    let mut answer = Answer::default();
    let (bytes, fonts) = (&bundle.bytes, &bundle.fonts);
    // SAFETY: as in `check`.
    unsafe {
        fulatzebi_fonts(
            bytes.as_ptr(),
            bytes.len(),
            fonts.as_ptr(),
            fonts.len(),
            &mut answer,
        )
    };
    answer
}

pub fn read(
    bundle: &Bundle,
    document: &[u8],
    page: usize,
    links: &mut [Link],
    marks: &mut [Mark],
) -> Answer {
    let mut answer = Answer::default();
    let (bytes, fonts) = (&bundle.bytes, &bundle.fonts);
    // SAFETY: as in `check`.
    unsafe {
        fulatzebi_read(
            bytes.as_ptr(),
            bytes.len(),
            fonts.as_ptr(),
            fonts.len(),
            document.as_ptr(),
            document.len(),
            page,
            links.as_mut_ptr(),
            links.len(),
            marks.as_mut_ptr(),
            marks.len(),
            &mut answer,
        )
    };
    answer
}

pub fn flatten(
    bundle: &Bundle,
    document: &[u8],
    page_marks: usize,
    links: &mut [Link],
    out: &mut [u8],
) -> Answer {
    let mut answer = Answer::default();
    let (bytes, fonts) = (&bundle.bytes, &bundle.fonts);
    // SAFETY: as in `check`.
    unsafe {
        fulatzebi_flatten(
            bytes.as_ptr(),
            bytes.len(),
            fonts.as_ptr(),
            fonts.len(),
            document.as_ptr(),
            document.len(),
            page_marks,
            links.as_mut_ptr(),
            links.len(),
            out.as_mut_ptr(),
            out.len(),
            &mut answer,
        )
    };
    answer
}

pub fn copy(
    bundle: &Bundle,
    opening: &[u8],
    documents: &[u8],
    sources: &[Source],
    page_marks: usize,
    links: &mut [Link],
    out: &mut [u8],
) -> Answer {
    let mut answer = Answer::default();
    let (bytes, fonts) = (&bundle.bytes, &bundle.fonts);
    // SAFETY: as in `check`.
    unsafe {
        fulatzebi_copy(
            bytes.as_ptr(),
            bytes.len(),
            fonts.as_ptr(),
            fonts.len(),
            opening.as_ptr(),
            opening.len(),
            documents.as_ptr(),
            documents.len(),
            sources.as_ptr(),
            sources.len(),
            page_marks,
            links.as_mut_ptr(),
            links.len(),
            out.as_mut_ptr(),
            out.len(),
            &mut answer,
        )
    };
    answer
}

// What the records take, so that a change of their layout is noticed here.
const _: () = {
    assert!(std::mem::size_of::<*const c_void>() == 8);
    assert!(std::mem::size_of::<Font>() == 40);
    assert!(std::mem::size_of::<Source>() == 24);
    assert!(std::mem::size_of::<Document>() == 40);
    assert!(std::mem::size_of::<Page>() == 48);
    assert!(std::mem::size_of::<Mark>() == 32);
    assert!(std::mem::size_of::<Link>() == 16);
    assert!(std::mem::size_of::<Answer>() == 56);
};
