//! The functions of `include/yaslaurel.h` as they are. What a caller owes stands there; a Rust slice, even an empty
//! one, always keeps it.

// The header describes the functions.
#![allow(missing_docs)]

/// The answer quiet of [`yaslaurel_step`] and [`yaslaurel_run`].
pub const QUIET: u32 = 0;
/// The answer alert.
pub const ALERT: u32 = 256;
/// The answer blocked.
pub const BLOCKED: u32 = 257;
/// The position where no mixture holds the tag.
pub const NO_POSITION: u32 = 255;
/// The file of [`yaslaurel_explain`] where there is no chain.
pub const NO_CHAIN: u64 = 256;

extern "C" {
    pub fn yaslaurel_version() -> u32;
    pub fn yaslaurel_image_check(image: *const u8, image_len: usize) -> u32;
    pub fn yaslaurel_image_normalise(image: *const u8, image_len: usize, out: *mut u8, out_len: usize) -> u32;
    pub fn yaslaurel_session_start(image: *const u8, image_len: usize, session: *mut u64, session_len: usize) -> u32;
    pub fn yaslaurel_step(
        session: *mut u64,
        session_len: usize,
        record: *const u8,
        record_len: usize,
        receiver: *mut u64,
        tag: *mut u64,
        position: *mut u32,
    ) -> u32;
    pub fn yaslaurel_run(
        session: *mut u64,
        session_len: usize,
        records: *const u8,
        records_len: usize,
        taken: *mut usize,
        receiver: *mut u64,
        tag: *mut u64,
        position: *mut u32,
    ) -> u32;
    pub fn yaslaurel_events(
        session: *mut u64,
        session_len: usize,
        records: *const u8,
        records_len: usize,
        events: *mut u64,
        events_len: usize,
        taken: *mut usize,
        written: *mut usize,
    ) -> u32;
    pub fn yaslaurel_figures(
        session: *mut u64,
        session_len: usize,
        records: *const u8,
        records_len: usize,
        figures: *mut u64,
        figures_len: usize,
    ) -> u32;
    pub fn yaslaurel_figures_add(total: *mut u64, total_len: usize, figures: *const u64, figures_len: usize) -> u32;
    pub fn yaslaurel_trace_trim(
        image: *const u8,
        image_len: usize,
        trace: *const u8,
        trace_len: usize,
        positions: *mut u8,
        positions_len: usize,
        kept: *mut usize,
    ) -> u32;
    pub fn yaslaurel_explain(
        image: *const u8,
        image_len: usize,
        trace: *const u8,
        trace_len: usize,
        container: usize,
        atom: usize,
        links: *mut u64,
        links_len: usize,
        steps: *mut u64,
        steps_len: usize,
        file: *mut u64,
        first: *mut u64,
    ) -> u32;
    pub fn yaslaurel_why(
        image: *const u8,
        image_len: usize,
        trace: *const u8,
        trace_len: usize,
        links: *mut u64,
        links_len: usize,
        steps: *mut u64,
        steps_len: usize,
        why: *mut u64,
        why_len: usize,
    ) -> u32;
    pub fn yaslaurel_matrix_verdict(
        reads: *const u32,
        reads_len: usize,
        writes: *const u32,
        writes_len: usize,
        objects: u32,
        count: *mut u32,
        source: *mut u32,
        target: *mut u32,
    ) -> u32;
    pub fn yaslaurel_matrix_silent(
        reads: *const u32,
        reads_len: usize,
        writes: *const u32,
        writes_len: usize,
        objects: u32,
    ) -> u32;
    pub fn yaslaurel_matrix_game(
        reads: *const u32,
        reads_len: usize,
        writes: *const u32,
        writes_len: usize,
        objects: u32,
        source: u32,
        target: u32,
        rounds: u32,
        withdrawals: u32,
        r#move: *mut u32,
        subject: *mut u32,
        object: *mut u32,
    ) -> u32;
    pub fn yaslaurel_matrix_judge(
        old_reads: *const u32,
        old_reads_len: usize,
        old_writes: *const u32,
        old_writes_len: usize,
        old_objects: u32,
        required_reads: *const u32,
        required_reads_len: usize,
        required_writes: *const u32,
        required_writes_len: usize,
        required_objects: u32,
        proposed_reads: *const u32,
        proposed_reads_len: usize,
        proposed_writes: *const u32,
        proposed_writes_len: usize,
        proposed_objects: u32,
    ) -> u32;
    pub fn yaslaurel_matrix_policy(
        reads: *const u32,
        reads_len: usize,
        writes: *const u32,
        writes_len: usize,
        objects: u32,
        out: *mut u8,
        out_len: usize,
    ) -> u32;
    pub fn yaslaurel_profiles_policy(text: *const u8, text_len: usize, out: *mut u8, out_len: usize) -> u32;
    pub fn yaslaurel_image_compose(
        first: *const u8,
        first_len: usize,
        second: *const u8,
        second_len: usize,
        consent: *const u8,
        consent_len: usize,
        out: *mut u8,
        out_len: usize,
        length: *mut usize,
    ) -> u32;
}
