//! The library, through its C interface.

#[repr(C)]
#[derive(Clone, Copy, Debug, PartialEq, Eq)]
pub struct Answer {
    pub number: u32,
    pub node: u32,
    pub count: u64,
}

extern "C" {
    fn tunesaturn_check(words: *const u32, length: usize) -> Answer;
    fn tunesaturn_rewrite(words: *const u32, length: usize, out: *mut u32, room: usize) -> Answer;
    #[allow(clippy::too_many_arguments)]
    fn tunesaturn_evaluate(
        words: *const u32,
        length: usize,
        counts: *const u32,
        tables: usize,
        cells: *const i64,
        cell_count: usize,
        limit: u32,
        scratch: *mut i64,
        scratch_room: usize,
        out: *mut i64,
        room: usize,
    ) -> Answer;
    fn tunesaturn_write_text(words: *const u32, length: usize, text: *mut u8, room: usize) -> Answer;
    fn tunesaturn_read_text(text: *const u8, length: usize, words: *mut u32, room: usize) -> Answer;
}

pub fn check(words: &[u32]) -> Answer {
    unsafe { tunesaturn_check(words.as_ptr(), words.len()) }
}

pub fn rewrite(words: &[u32], out: &mut [u32]) -> Answer {
    unsafe { tunesaturn_rewrite(words.as_ptr(), words.len(), out.as_mut_ptr(), out.len()) }
}

pub fn evaluate(words: &[u32], counts: &[u32], cells: &[i64], limit: u32, scratch: &mut [i64], out: &mut [i64]) -> Answer {
    unsafe {
        tunesaturn_evaluate(
            words.as_ptr(),
            words.len(),
            counts.as_ptr(),
            counts.len(),
            cells.as_ptr(),
            cells.len(),
            limit,
            scratch.as_mut_ptr(),
            scratch.len(),
            out.as_mut_ptr(),
            out.len(),
        )
    }
}

pub fn write_text(words: &[u32], text: &mut [u8]) -> Answer {
    unsafe { tunesaturn_write_text(words.as_ptr(), words.len(), text.as_mut_ptr(), text.len()) }
}

pub fn read_text(text: &[u8], words: &mut [u32]) -> Answer {
    unsafe { tunesaturn_read_text(text.as_ptr(), text.len(), words.as_mut_ptr(), words.len()) }
}
