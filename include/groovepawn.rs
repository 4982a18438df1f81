//! The functions of `groovepawn.h` for Rust, which says what each takes, returns
//! and writes. Each pointer and the length after it are those of one slice, and
//! slices do not overlap.

// A program may well need some of them only.
#![allow(dead_code)]

// The numbers of `groovepawn.h`, by its names. A refusal is the low eight bits of an answer.
pub const GROOVEPAWN_VERSION_MAJOR: u32 = 1;
pub const GROOVEPAWN_VERSION_MINOR: u32 = 2;
pub const GROOVEPAWN_VERSION_PATCH: u32 = 0;

pub const GROOVEPAWN_READING_AT_START: u8 = 1;
pub const GROOVEPAWN_READING_AFTER_COUNTING: u8 = 2;

pub const GROOVEPAWN_STATE_LEN: usize = 5;
pub const GROOVEPAWN_STATION_LEN: usize = 6;
pub const GROOVEPAWN_TOTALS_LEN: usize = 2;
pub const GROOVEPAWN_INDEX_LEN: usize = 128;
pub const GROOVEPAWN_MOST_FILE_BYTES: usize = 5974;
pub const GROOVEPAWN_MOST_STATES: usize = 65_536;
pub const GROOVEPAWN_MOST_BAYS: usize = 8;
pub const GROOVEPAWN_MOST_EVENTS_OF_A_WAVE: usize = 16_384;
pub const GROOVEPAWN_MOST_TEXT_BYTES: usize = 508_119;
pub const GROOVEPAWN_MOST_STRUCK_BYTES: usize = 957;
pub const GROOVEPAWN_MOST_POLICY_TEXT_BYTES: usize = 39_420;
pub const GROOVEPAWN_MOST_NAME_BYTES: usize = 16;

pub const GROOVEPAWN_NOT_REFUSED: u8 = 0;
pub const GROOVEPAWN_REFUSED_CUT_SHORT: u8 = 1;
pub const GROOVEPAWN_REFUSED_COUNT: u8 = 2;
pub const GROOVEPAWN_REFUSED_TAG: u8 = 3;
pub const GROOVEPAWN_REFUSED_CEILING: u8 = 4;
pub const GROOVEPAWN_REFUSED_LOCATION: u8 = 5;
pub const GROOVEPAWN_REFUSED_RULE: u8 = 6;
pub const GROOVEPAWN_REFUSED_BOUNDS: u8 = 7;
pub const GROOVEPAWN_REFUSED_LEFT_OVER: u8 = 8;
pub const GROOVEPAWN_REFUSED_TOO_MANY_STATES: u8 = 9;
pub const GROOVEPAWN_REFUSED_MARKS_SHORT: u8 = 10;
pub const GROOVEPAWN_REFUSED_HOPELESS: u8 = 11;
pub const GROOVEPAWN_REFUSED_OTHER_SIGNALS: u8 = 12;
pub const GROOVEPAWN_REFUSED_JOIN_TOO_LARGE: u8 = 13;
pub const GROOVEPAWN_REFUSED_SLICE_SHORT: u8 = 14;
pub const GROOVEPAWN_REFUSED_BEYOND_SIGNALS: u8 = 15;
pub const GROOVEPAWN_REFUSED_STATE: u8 = 16;
pub const GROOVEPAWN_REFUSED_NO_WAY_ON: u8 = 17;
pub const GROOVEPAWN_REFUSED_TICK_LENGTH: u8 = 18;
pub const GROOVEPAWN_REFUSED_TICK_COUNT: u8 = 19;
pub const GROOVEPAWN_REFUSED_OTHER_MARKS: u8 = 20;
pub const GROOVEPAWN_REFUSED_TEXT: u8 = 21;
pub const GROOVEPAWN_REFUSED_READING: u8 = 22;
pub const GROOVEPAWN_REFUSED_WORK_SHORT: u8 = 23;
pub const GROOVEPAWN_REFUSED_NO_SUCH_BAY: u8 = 24;
pub const GROOVEPAWN_REFUSED_BAYS: u8 = 25;
pub const GROOVEPAWN_REFUSED_NO_METER_SIGNALS: u8 = 26;
pub const GROOVEPAWN_REFUSED_TOTAL_FULL: u8 = 27;
pub const GROOVEPAWN_REFUSED_INDEX: u8 = 28;
pub const GROOVEPAWN_REFUSED_TOO_MANY_EVENTS: u8 = 29;
pub const GROOVEPAWN_REFUSED_LINE: u8 = 30;
pub const GROOVEPAWN_REFUSED_NAME: u8 = 31;
pub const GROOVEPAWN_REFUSED_NUMBER: u8 = 32;
pub const GROOVEPAWN_REFUSED_NO_ROOM: u8 = 33;
pub const GROOVEPAWN_REFUSED_AT_BEFORE: u8 = 34;
pub const GROOVEPAWN_REFUSED_NO_SUCH: u8 = 35;

pub const GROOVEPAWN_NOT_EDITED: u8 = 0;
pub const GROOVEPAWN_RULE_FORBIDS: u8 = 1;
pub const GROOVEPAWN_NO_RULE_MATCHES: u8 = 2;
pub const GROOVEPAWN_TICKS_LEFT: u8 = 3;
pub const GROOVEPAWN_RESTS_LEFT: u8 = 4;

pub const GROOVEPAWN_STRUCK_LOCATION: u8 = 1;
pub const GROOVEPAWN_STRUCK_WITH_IT: u8 = 2;
pub const GROOVEPAWN_STRUCK_RULE: u8 = 3;

extern "C" {
    pub fn groovepawn_check(file: *const u8, file_len: usize) -> u64;

    pub fn groovepawn_prepare(
        reading: u8,
        file: *const u8,
        file_len: usize,
        marks: *mut u8,
        marks_len: usize,
    ) -> u64;

    pub fn groovepawn_input(
        reading: u8,
        file: *const u8,
        file_len: usize,
        marks: *const u8,
        marks_len: usize,
        state: *const u16,
        state_len: usize,
        x: u8,
    ) -> u32;

    pub fn groovepawn_output(
        reading: u8,
        file: *const u8,
        file_len: usize,
        marks: *const u8,
        marks_len: usize,
        state: *mut u16,
        state_len: usize,
        x: u8,
        y: u8,
    ) -> u32;

    pub fn groovepawn_run(
        reading: u8,
        file: *const u8,
        file_len: usize,
        marks: *const u8,
        marks_len: usize,
        state: *mut u16,
        state_len: usize,
        events: *const u8,
        events_len: usize,
        released: *mut u8,
        released_len: usize,
    ) -> u64;

    pub fn groovepawn_join(
        a: *const u8,
        a_len: usize,
        b: *const u8,
        b_len: usize,
        out: *mut u8,
        out_len: usize,
    ) -> u64;

    pub fn groovepawn_ticks(milliseconds: u32, tick_length: u32, up: u8) -> u32;

    pub fn groovepawn_wave_write(
        file: *const u8,
        file_len: usize,
        events: *const u8,
        events_len: usize,
        text: *mut u8,
        text_len: usize,
    ) -> u64;

    pub fn groovepawn_wave_read(
        file: *const u8,
        file_len: usize,
        text: *const u8,
        text_len: usize,
        events: *mut u8,
        events_len: usize,
    ) -> u64;

    pub fn groovepawn_index(
        file: *const u8,
        file_len: usize,
        index: *mut u16,
        index_len: usize,
    ) -> u32;

    pub fn groovepawn_input_indexed(
        reading: u8,
        file: *const u8,
        file_len: usize,
        index: *const u16,
        index_len: usize,
        marks: *const u8,
        marks_len: usize,
        state: *const u16,
        state_len: usize,
        x: u8,
    ) -> u32;

    pub fn groovepawn_output_indexed(
        reading: u8,
        file: *const u8,
        file_len: usize,
        index: *const u16,
        index_len: usize,
        marks: *const u8,
        marks_len: usize,
        state: *mut u16,
        state_len: usize,
        x: u8,
        y: u8,
    ) -> u32;

    pub fn groovepawn_bays_new(states: *mut u16, states_len: usize) -> u32;

    pub fn groovepawn_bay_input(
        reading: u8,
        file: *const u8,
        file_len: usize,
        marks: *const u8,
        marks_len: usize,
        states: *const u16,
        states_len: usize,
        bay: u32,
        x: u8,
    ) -> u32;

    pub fn groovepawn_bay_output(
        reading: u8,
        file: *const u8,
        file_len: usize,
        marks: *const u8,
        marks_len: usize,
        states: *mut u16,
        states_len: usize,
        bay: u32,
        x: u8,
        y: u8,
    ) -> u32;

    pub fn groovepawn_meter_new(
        station: *mut u16,
        station_len: usize,
        totals: *mut u32,
        totals_len: usize,
        reading_of_register: u16,
    ) -> u32;

    pub fn groovepawn_meter_input(
        reading: u8,
        file: *const u8,
        file_len: usize,
        marks: *const u8,
        marks_len: usize,
        station: *const u16,
        station_len: usize,
        reading_of_register: u16,
        x: u8,
    ) -> u32;

    pub fn groovepawn_meter_output(
        reading: u8,
        file: *const u8,
        file_len: usize,
        marks: *const u8,
        marks_len: usize,
        station: *mut u16,
        station_len: usize,
        totals: *mut u32,
        totals_len: usize,
        reading_of_register: u16,
        x: u8,
        y: u8,
    ) -> u32;

    pub fn groovepawn_prepare_fast(
        reading: u8,
        file: *const u8,
        file_len: usize,
        marks: *mut u8,
        marks_len: usize,
        work_1: *mut u16,
        work_1_len: usize,
        work_2: *mut u16,
        work_2_len: usize,
        work_3: *mut u16,
        work_3_len: usize,
        work_4: *mut u16,
        work_4_len: usize,
        work_5: *mut u16,
        work_5_len: usize,
    ) -> u64;

    pub fn groovepawn_clean(
        reading: u8,
        file: *const u8,
        file_len: usize,
        cleaned: *mut u8,
        cleaned_len: usize,
        struck: *mut u8,
        struck_len: usize,
    ) -> u64;

    pub fn groovepawn_why(
        reading: u8,
        file: *const u8,
        file_len: usize,
        marks: *const u8,
        marks_len: usize,
        state: *const u16,
        state_len: usize,
        x: u8,
        y: u8,
    ) -> u64;

    pub fn groovepawn_why_run(
        reading: u8,
        file: *const u8,
        file_len: usize,
        marks: *const u8,
        marks_len: usize,
        state: *mut u16,
        state_len: usize,
        events: *const u8,
        events_len: usize,
        reasons: *mut u64,
        reasons_len: usize,
        ticks: *mut u32,
        ticks_len: usize,
        rests: *mut u32,
        rests_len: usize,
        prepared: *mut u8,
        prepared_len: usize,
        work_1: *mut u16,
        work_1_len: usize,
        work_2: *mut u16,
        work_2_len: usize,
        work_3: *mut u16,
        work_3_len: usize,
        work_4: *mut u16,
        work_4_len: usize,
        work_5: *mut u16,
        work_5_len: usize,
    ) -> u64;

    pub fn groovepawn_text_read(
        text: *const u8,
        text_len: usize,
        file: *mut u8,
        file_len: usize,
    ) -> u64;

    pub fn groovepawn_text_write(
        file: *const u8,
        file_len: usize,
        text: *mut u8,
        text_len: usize,
    ) -> u64;

    pub fn groovepawn_text_line_of_rule(text: *const u8, text_len: usize, rule: u32) -> u64;

    pub fn groovepawn_text_name_of_signal(text: *const u8, text_len: usize, signal: u32) -> u64;

    pub fn groovepawn_text_name_of_clock(text: *const u8, text_len: usize, clock: u32) -> u64;

    pub fn groovepawn_text_name_of_location(text: *const u8, text_len: usize, location: u32)
        -> u64;
}
