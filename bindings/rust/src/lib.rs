//! Safe calls into libbaxoodhiir.a, the proved library for HTTP byte ranges. Every function takes any input
//! and refuses bad input by a number of the refusal table in README.md.

mod sys {
    // Declared as in include/baxoodhiir.h: a byte slice is a pointer and then a length.
    extern "C" {
        pub fn baxoodhiir_runs_size() -> usize;
        pub fn baxoodhiir_max_saved() -> usize;
        pub fn baxoodhiir_answer(
            method: *const u8,
            method_len: usize,
            has_range: bool,
            range: *const u8,
            range_len: usize,
            has_if_range: bool,
            if_range: *const u8,
            if_range_len: usize,
            file: *const u8,
            file_len: usize,
            tag: *const u8,
            tag_len: usize,
            media: *const u8,
            media_len: usize,
            boundary: *const u8,
            boundary_len: usize,
            has_modified: bool,
            modified: i64,
            strong: bool,
            reference: i64,
            out: *mut u8,
            out_len: usize,
            reason: *mut usize,
            written: *mut usize,
        ) -> usize;
        pub fn baxoodhiir_request(
            tag: *const u8,
            tag_len: usize,
            length: usize,
            runs: *const u8,
            runs_len: usize,
            out: *mut u8,
            out_len: usize,
            written: *mut usize,
        ) -> usize;
        pub fn baxoodhiir_read(
            tag: *const u8,
            tag_len: usize,
            length: usize,
            runs: *mut u8,
            runs_len: usize,
            buffer: *mut u8,
            buffer_len: usize,
            answer: *const u8,
            answer_len: usize,
            piece: usize,
            taken: *mut usize,
        ) -> usize;
        pub fn baxoodhiir_save(
            tag: *const u8,
            tag_len: usize,
            length: usize,
            runs: *const u8,
            runs_len: usize,
            out: *mut u8,
            out_len: usize,
            written: *mut usize,
        ) -> usize;
        pub fn baxoodhiir_load(
            file: *const u8,
            file_len: usize,
            tag: *mut u8,
            tag_size: usize,
            tag_len: *mut usize,
            length: *mut usize,
            runs: *mut u8,
            runs_len: usize,
        ) -> usize;
    }
}

/// The number of a refusal: 1 to 7 and 9 from the server end, 11 to 20 and 22 to 30 from the tablet end.
#[derive(Clone, Copy, Debug, PartialEq, Eq)]
pub struct Refusal(pub usize);

/// When the file was last modified, in seconds since 1970. `strong` says that RFC 7232, section 2.2.2, makes this time a
/// strong validator: only then does a date in If-Range match.
#[derive(Clone, Copy, Debug, PartialEq, Eq)]
pub struct LastModified {
    pub seconds: i64,
    pub strong: bool,
}

/// A request and the file it is for. An empty `tag` or `media` means none. A two-digit year in If-Range is the latest that
/// puts the date at most 50 years after `reference`, in seconds since 1970, which is mostly the server's present time.
/// `reference` and a given `modified` must lie in 1970 to 9999, whatever is asked: 9 otherwise.
#[derive(Clone, Copy, Debug)]
pub struct Asked<'a> {
    pub method: &'a [u8],
    pub range: Option<&'a [u8]>,
    pub if_range: Option<&'a [u8]>,
    pub file: &'a [u8],
    pub tag: &'a [u8],
    pub media: &'a [u8],
    pub boundary: &'a [u8],
    pub modified: Option<LastModified>,
    pub reference: i64,
}

/// An answer that was written. `reason` is the row of the status table: 1 HEAD, 2 NONE, 3 LONG, 4 UNIT,
/// 5 MALFORMED, 6 MANY, 7 CHANGED FILE, 8 INVALID, 9 UNSATISFIABLE, 10 EMPTY, 11 for a 206.
#[derive(Clone, Copy, Debug, PartialEq, Eq)]
pub struct Answered {
    pub status: usize,
    pub reason: usize,
    pub written: usize,
}

/// What the reader says after the bytes it was given.
#[derive(Clone, Copy, Debug, PartialEq, Eq)]
pub enum Report {
    More,
    Finished,
    Refused(Refusal),
}

/// Writes one whole HTTP/1.1 answer into the front of `out`. A refusal (1 to 7, 9) writes nothing.
pub fn answer(asked: &Asked, out: &mut [u8]) -> Result<Answered, Refusal> {
    let range = asked.range.unwrap_or(&[]);
    let if_range = asked.if_range.unwrap_or(&[]);
    let modified = asked.modified.unwrap_or(LastModified { seconds: 0, strong: false });
    let (mut reason, mut written) = (0, 0);
    // SAFETY: each pointer stands beside the length of the slice it comes from, all slices live through
    // the call, and `out`, `reason` and `written` are lent for writing to nobody else.
    let status = unsafe {
        sys::baxoodhiir_answer(
            asked.method.as_ptr(),
            asked.method.len(),
            asked.range.is_some(),
            range.as_ptr(),
            range.len(),
            asked.if_range.is_some(),
            if_range.as_ptr(),
            if_range.len(),
            asked.file.as_ptr(),
            asked.file.len(),
            asked.tag.as_ptr(),
            asked.tag.len(),
            asked.media.as_ptr(),
            asked.media.len(),
            asked.boundary.as_ptr(),
            asked.boundary.len(),
            asked.modified.is_some(),
            modified.seconds,
            modified.strong,
            asked.reference,
            out.as_mut_ptr(),
            out.len(),
            &mut reason,
            &mut written,
        )
    };
    if reason == 0 {
        return Err(Refusal(status));
    }
    Ok(Answered { status, reason, written })
}

/// The size in bytes of a list of runs.
pub fn runs_size() -> usize {
    // SAFETY: takes nothing.
    unsafe { sys::baxoodhiir_runs_size() }
}

/// The list of runs, as bytes, of the held positions `first..=last`. Any list can be written; the library
/// refuses by 19 a list that breaks the copy's rule (docs/RECORDS.md). None: more runs than the list has room for.
pub fn runs_to_bytes(runs: &[(u64, u64)]) -> Option<Vec<u8>> {
    let mut bytes = vec![0; runs_size()];
    if 8 + 16 * runs.len() > bytes.len() {
        return None;
    }
    bytes[..8].copy_from_slice(&(runs.len() as u64).to_be_bytes());
    for (slot, (first, last)) in bytes[8..].chunks_exact_mut(16).zip(runs) {
        slot[..8].copy_from_slice(&first.to_be_bytes());
        slot[8..].copy_from_slice(&last.to_be_bytes());
    }
    Some(bytes)
}

/// The runs in a list of runs. None: the size is another, or the count is larger than the list has room for.
pub fn runs_from_bytes(bytes: &[u8]) -> Option<Vec<(u64, u64)>> {
    let number = |at: usize| u64::from_be_bytes(bytes[at..at + 8].try_into().unwrap());
    if bytes.len() != runs_size() || number(0) > (bytes.len() as u64 - 8) / 16 {
        return None;
    }
    Some((0..number(0) as usize).map(|i| (number(8 + 16 * i), number(16 + 16 * i))).collect())
}

/// A function of the archive that writes something of a copy.
type Writes = unsafe extern "C" fn(*const u8, usize, usize, *const u8, usize, *mut u8, usize, *mut usize) -> usize;

/// What it writes into the front of `out`: its length, or the refusal.
fn written_of(writes: Writes, tag: &[u8], length: usize, runs: &[u8], out: &mut [u8]) -> Result<usize, Refusal> {
    let mut written = 0;
    // SAFETY: as in `answer`.
    let number = unsafe {
        writes(tag.as_ptr(), tag.len(), length, runs.as_ptr(), runs.len(), out.as_mut_ptr(), out.len(), &mut written)
    };
    match number {
        0 => Ok(written),
        number => Err(Refusal(number)),
    }
}

/// Writes the request for what is missing into the front of `out` and gives its length. Refuses by 19, 18 or
/// 20, and then writes nothing.
pub fn request(tag: &[u8], length: usize, runs: &[u8], out: &mut [u8]) -> Result<usize, Refusal> {
    written_of(sys::baxoodhiir_request, tag, length, runs, out)
}

/// Begins an answer with a fresh reader and feeds it `answer` in pieces of `piece` bytes (0: in one piece).
/// Gives how many bytes were taken and the last report; `runs` and `buffer` are the copy's and are updated.
pub fn read(
    tag: &[u8],
    length: usize,
    runs: &mut [u8],
    buffer: &mut [u8],
    answer: &[u8],
    piece: usize,
) -> (usize, Report) {
    let mut taken = 0;
    // SAFETY: as in `answer`; `runs` and `buffer` are lent for writing to nobody else.
    let number = unsafe {
        sys::baxoodhiir_read(
            tag.as_ptr(),
            tag.len(),
            length,
            runs.as_mut_ptr(),
            runs.len(),
            buffer.as_mut_ptr(),
            buffer.len(),
            answer.as_ptr(),
            answer.len(),
            piece,
            &mut taken,
        )
    };
    let report = match number {
        0 => Report::More,
        100 => Report::Finished,
        number => Report::Refused(Refusal(number)),
    };
    (taken, report)
}

/// The most bytes of a saved file.
pub fn max_saved() -> usize {
    // SAFETY: takes nothing.
    unsafe { sys::baxoodhiir_max_saved() }
}

/// Writes the saved file of a copy into the front of `out` and gives its length. Refuses by 19 or 20, and then writes
/// nothing. The data is not in it: include/baxoodhiir.h says in which order to write both files.
pub fn save(tag: &[u8], length: usize, runs: &[u8], out: &mut [u8]) -> Result<usize, Refusal> {
    written_of(sys::baxoodhiir_save, tag, length, runs, out)
}

/// Loads the copy of a saved file. `tag` has 64 bytes: the first `tag_len` are then the tag, the others 0. `runs` has the
/// size of a list of runs. A refusal (19 where a size is another, else 22 to 30) changes nothing.
pub fn load(
    file: &[u8],
    tag: &mut [u8],
    tag_len: &mut usize,
    length: &mut usize,
    runs: &mut [u8],
) -> Result<(), Refusal> {
    // SAFETY: as in `answer`; `tag`, `tag_len`, `length` and `runs` are lent for writing to nobody else.
    let number = unsafe {
        sys::baxoodhiir_load(
            file.as_ptr(),
            file.len(),
            tag.as_mut_ptr(),
            tag.len(),
            tag_len,
            length,
            runs.as_mut_ptr(),
            runs.len(),
        )
    };
    match number {
        0 => Ok(()),
        number => Err(Refusal(number)),
    }
}
