//! The exports of the static library, and calls of them that take as much room as they need.

/// What a call answers: `leafnurd_answer` of leafnurd.h.
#[repr(C)]
#[derive(Clone, Copy)]
pub(crate) struct Answer {
    status: u32,
    length: usize,
}

/// A call that judges a text and writes its verdict.
pub(crate) type Call =
    unsafe extern "C" fn(text: *const u8, text_length: usize, out: *mut u8, out_length: usize) -> Answer;

// leafnurd.h declares the same. Nothing compares the two but the tests.
unsafe extern "C" {
    pub(crate) fn leafnurd_judge(text: *const u8, text_length: usize, out: *mut u8, out_length: usize) -> Answer;
    pub(crate) fn leafnurd_explain(text: *const u8, text_length: usize, out: *mut u8, out_length: usize) -> Answer;
    fn leafnurd_version(out: *mut u8, out_length: usize) -> usize;
}

/// How much room the first call of a text gets: more than almost any verdict takes.
const ROOM: usize = 1024;

/// The status and the text that a call answers.
pub(crate) fn written(call: Call, text: &[u8]) -> (u32, String) {
    let mut out = vec![0; ROOM];
    loop {
        // SAFETY: both pointers and lengths are those of slices that are borrowed for the call, the second for
        // writing, and `call` is one of the two exports above, which ask for no more.
        let answer = unsafe { call(text.as_ptr(), text.len(), out.as_mut_ptr(), out.len()) };
        if answer.length <= out.len() {
            out.truncate(answer.length);
            return (answer.status, text_of(out));
        }
        out.resize(answer.length, 0);
    }
}

/// The version of the library.
pub(crate) fn version() -> String {
    let mut out = vec![0; ROOM];
    // SAFETY: the pointer and the length are those of one slice, which is borrowed for the call.
    let length = unsafe { leafnurd_version(out.as_mut_ptr(), out.len()) };
    out.truncate(length);
    text_of(out)
}

/// What the library writes is UTF-8.
fn text_of(out: Vec<u8>) -> String {
    String::from_utf8(out).unwrap_or_else(|other| String::from_utf8_lossy(other.as_bytes()).into_owned())
}
