//! The calls as the static library has them (include/tugzeck.h): a slice is a pointer and a count, a configuration a pointer.

#[repr(C)]
pub struct Splitting {
    pub number: u32,
    pub configuration: [u16; 4],
}

#[repr(C)]
pub struct Decoding {
    pub number: u32,
    pub metric: i32,
}

#[repr(C)]
pub struct Marking {
    pub number: u32,
    pub verdict: u32,
    pub shortfall: i32,
}

#[repr(C)]
pub struct Judgement {
    pub number: u32,
    pub questions: u32,
}

#[repr(C)]
pub struct Asked {
    pub number: u32,
    pub found: u32,
    pub code: u32,
    pub question: u32,
}

#[repr(C)]
pub struct Drawn {
    pub number: u32,
    pub state: u32,
}

#[repr(C)]
pub struct Listed {
    pub number: u32,
    pub length: usize,
}

extern "C" {
    pub fn tugzeck_encode(code: u32, message: *const u8, message_count: usize, output: *mut u8, output_count: usize) -> u32;
    pub fn tugzeck_encode_by(m: u32, r: u32, message: *const u8, message_count: usize, output: *mut u8, output_count: usize) -> u32;
    pub fn tugzeck_read_word(code: u32, word: *const u8, word_count: usize, output: *mut u8, output_count: usize) -> u32;
    pub fn tugzeck_read_word_by(m: u32, r: u32, word: *const u8, word_count: usize, output: *mut u8, output_count: usize) -> u32;
    pub fn tugzeck_check_word(code: u32, word: *const u8, word_count: usize) -> u32;
    pub fn tugzeck_check_word_by(m: u32, r: u32, word: *const u8, word_count: usize) -> u32;
    pub fn tugzeck_split(code: u32, word: *const u8, word_count: usize, bch: *mut u8, bch_count: usize) -> Splitting;
    pub fn tugzeck_split_by(m: u32, r: u32, word: *const u8, word_count: usize, bch: *mut u8, bch_count: usize) -> Splitting;
    pub fn tugzeck_join(
        code: u32,
        configuration: *const [u16; 4],
        bch: *const u8,
        bch_count: usize,
        output: *mut u8,
        output_count: usize,
    ) -> u32;
    pub fn tugzeck_join_by(
        m: u32,
        r: u32,
        configuration: *const [u16; 4],
        bch: *const u8,
        bch_count: usize,
        output: *mut u8,
        output_count: usize,
    ) -> u32;
    pub fn tugzeck_quantise(code: u32, samples: *const f32, samples_count: usize, row: *mut i16, row_count: usize) -> u32;
    pub fn tugzeck_quantise_by(m: u32, r: u32, samples: *const f32, samples_count: usize, row: *mut i16, row_count: usize) -> u32;
    pub fn tugzeck_receive(
        code: u32,
        kinds: *const u8,
        kinds_count: usize,
        samples: *const f32,
        samples_count: usize,
        row: *mut i16,
        row_count: usize,
    ) -> u32;
    pub fn tugzeck_receive_by(
        m: u32,
        r: u32,
        kinds: *const u8,
        kinds_count: usize,
        samples: *const f32,
        samples_count: usize,
        row: *mut i16,
        row_count: usize,
    ) -> u32;
    pub fn tugzeck_decode(
        code: u32,
        row: *const i16,
        row_count: usize,
        word: *mut u8,
        word_count: usize,
        soft: *mut i16,
        soft_count: usize,
        scratch: *mut i32,
        scratch_count: usize,
    ) -> Decoding;
    pub fn tugzeck_decode_by(
        m: u32,
        r: u32,
        row: *const i16,
        row_count: usize,
        word: *mut u8,
        word_count: usize,
        soft: *mut i16,
        soft_count: usize,
        scratch: *mut i32,
        scratch_count: usize,
    ) -> Decoding;
    pub fn tugzeck_mark(
        code: u32,
        row: *const i16,
        row_count: usize,
        word: *const u8,
        word_count: usize,
        scratch: *mut i32,
        scratch_count: usize,
    ) -> Marking;
    pub fn tugzeck_mark_by(
        m: u32,
        r: u32,
        row: *const i16,
        row_count: usize,
        word: *const u8,
        word_count: usize,
        scratch: *mut i32,
        scratch_count: usize,
    ) -> Marking;
    pub fn tugzeck_judge_sheet(sheet: *const u8, sheet_count: usize) -> Judgement;
    pub fn tugzeck_question(
        sheet: *const u8,
        sheet_count: usize,
        index: usize,
        row: *mut i16,
        row_count: usize,
        word: *mut u8,
        word_count: usize,
    ) -> Asked;
    pub fn tugzeck_write_sheet(
        codes: *const u32,
        codes_count: usize,
        numbers: *const u32,
        numbers_count: usize,
        rows: *const i16,
        rows_count: usize,
        words: *const u8,
        words_count: usize,
        output: *mut u8,
        output_count: usize,
    ) -> u32;
    pub fn tugzeck_practice(code: u32, count: u32, state: u32, output: *mut u8, output_count: usize) -> Drawn;
    pub fn tugzeck_list(sheet: *const u8, sheet_count: usize, output: *mut u8, output_count: usize) -> Listed;
}
