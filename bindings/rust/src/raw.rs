//! The functions of `include/sewing.h`.

/// Sewing, sewing for a print shop and the single stages: job and its length, output and its length, value.
pub type Operation = unsafe extern "C" fn(*const u8, usize, *mut u8, usize, *mut usize) -> usize;

/// Sewing and the walk stage with a joining table: table and its length, then as [`Operation`].
pub type TableOperation =
    unsafe extern "C" fn(*const u8, usize, *const u8, usize, *mut u8, usize, *mut usize) -> usize;

unsafe extern "C" {
    pub fn zaxclover_sew(
        job: *const u8,
        job_length: usize,
        out: *mut u8,
        out_length: usize,
        value: *mut usize,
    ) -> usize;
    pub fn zaxclover_read_stage(
        job: *const u8,
        job_length: usize,
        out: *mut u8,
        out_length: usize,
        value: *mut usize,
    ) -> usize;
    pub fn zaxclover_pair_stage(
        job: *const u8,
        job_length: usize,
        out: *mut u8,
        out_length: usize,
        value: *mut usize,
    ) -> usize;
    pub fn zaxclover_merge_stage(
        job: *const u8,
        job_length: usize,
        out: *mut u8,
        out_length: usize,
        value: *mut usize,
    ) -> usize;
    pub fn zaxclover_vertex_loop_stage(
        job: *const u8,
        job_length: usize,
        out: *mut u8,
        out_length: usize,
        value: *mut usize,
    ) -> usize;
    pub fn zaxclover_walk_stage(
        job: *const u8,
        job_length: usize,
        out: *mut u8,
        out_length: usize,
        value: *mut usize,
    ) -> usize;
    pub fn zaxclover_loop_stage(
        job: *const u8,
        job_length: usize,
        out: *mut u8,
        out_length: usize,
        value: *mut usize,
    ) -> usize;
    pub fn zaxclover_fan_stage(
        job: *const u8,
        job_length: usize,
        out: *mut u8,
        out_length: usize,
        value: *mut usize,
    ) -> usize;
    pub fn zaxclover_edge_stage(
        job: *const u8,
        job_length: usize,
        out: *mut u8,
        out_length: usize,
        value: *mut usize,
    ) -> usize;
    pub fn zaxclover_joining_stage(
        job: *const u8,
        job_length: usize,
        out: *mut u8,
        out_length: usize,
        value: *mut usize,
    ) -> usize;
    pub fn zaxclover_shell_stage(
        job: *const u8,
        job_length: usize,
        out: *mut u8,
        out_length: usize,
        value: *mut usize,
    ) -> usize;
    pub fn zaxclover_lump_stage(
        job: *const u8,
        job_length: usize,
        out: *mut u8,
        out_length: usize,
        value: *mut usize,
    ) -> usize;
    pub fn zaxclover_sew_with_table(
        table: *const u8,
        table_length: usize,
        job: *const u8,
        job_length: usize,
        out: *mut u8,
        out_length: usize,
        value: *mut usize,
    ) -> usize;
    pub fn zaxclover_walk_stage_with_table(
        table: *const u8,
        table_length: usize,
        job: *const u8,
        job_length: usize,
        out: *mut u8,
        out_length: usize,
        value: *mut usize,
    ) -> usize;
    pub fn zaxclover_sew_for_print(
        job: *const u8,
        job_length: usize,
        out: *mut u8,
        out_length: usize,
        value: *mut usize,
    ) -> usize;
    pub fn zaxclover_loop(
        job: *const u8,
        job_length: usize,
        n: usize,
        start: *mut usize,
        value: *mut usize,
    ) -> usize;
    pub fn zaxclover_list(
        job: *const u8,
        job_length: usize,
        page: *mut u8,
        page_length: usize,
    ) -> usize;
    pub fn zaxclover_listing(
        number: usize,
        value: usize,
        out: *const u8,
        out_length: usize,
        page: *mut u8,
        page_length: usize,
    ) -> usize;
}
