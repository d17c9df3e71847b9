//! Hekudoja for tools in Rust: exact smoothing of ground profiles. Slices go in, and a count or a refusal comes out. A call
//! that refuses writes nothing; one that goes well writes the front of its buffer and leaves the further places as they were.
//!
//! A slice is never null, and none that is written overlaps another, so the proved functions can take any that safe code has.

/// The most bytes of a sheet, or of an input.
pub const INPUT: usize = 32_768;
/// The most bytes that any call writes, which `answer` asks for.
pub const OUTPUT: usize = 1_178_200;
/// The most heights of a profile.
pub const HEIGHTS: usize = 2_048;
/// The most levels of a schedule, the ground among them.
pub const LEVELS: usize = 25;

/// Why a call changed nothing.
#[derive(Clone, Copy, PartialEq, Eq, Debug)]
pub struct Refusal {
    /// 4 no such level, 7 no height or more than 2,048, 8 a height out of range, 9 no more heights than the reach, 10 the work
    /// buffer is too short, 20 another line of names, 21 a malformed line, 22 a line's pass or station is refused, 23 the buffer is
    /// too short, 24 more than 32,768 bytes.
    pub number: u64,
    /// The sheet that is at fault: 1 the first of the call, 2 the second, 0 none.
    pub sheet: u64,
    /// The line of that sheet, counted from 1; 0 where no line is at fault.
    pub line: u64,
}

/// A level as it was drawn: `work` begins with so many numerators, which are to be divided by the scale.
#[derive(Clone, Copy, PartialEq, Eq, Debug)]
pub struct Drawn {
    pub length: usize,
    pub scale: u64,
}

mod raw {
    #[repr(C)]
    pub struct Reply {
        pub count: u64,
        pub refusal: u64,
        pub sheet: u64,
        pub line: u64,
    }

    // A slice is a pointer and then a length.
    unsafe extern "C" {
        pub fn hekudoja_answer(
            input: *const u8,
            input_length: usize,
            out: *mut u8,
            out_length: usize,
        ) -> Reply;
        pub fn hekudoja_check_schedule(sheet: *const u8, sheet_length: usize) -> Reply;
        pub fn hekudoja_compare(
            first: *const u8,
            first_length: usize,
            second: *const u8,
            second_length: usize,
        ) -> Reply;
        pub fn hekudoja_reduce_schedule(
            sheet: *const u8,
            sheet_length: usize,
            out: *mut u8,
            out_length: usize,
        ) -> Reply;
        pub fn hekudoja_read_profile(
            sheet: *const u8,
            sheet_length: usize,
            heights: *mut i64,
            heights_length: usize,
        ) -> Reply;
        pub fn hekudoja_list_level(
            schedule: *const u8,
            schedule_length: usize,
            level: usize,
            profile: *const u8,
            profile_length: usize,
            out: *mut u8,
            out_length: usize,
        ) -> Reply;
        pub fn hekudoja_draw(
            schedule: *const u8,
            schedule_length: usize,
            level: usize,
            heights: *const i64,
            heights_length: usize,
            work: *mut i64,
            work_length: usize,
            scale: *mut u64,
        ) -> Reply;
        pub fn hekudoja_count_turns(
            schedule: *const u8,
            schedule_length: usize,
            heights: *const i64,
            heights_length: usize,
            counts: *mut u64,
            counts_length: usize,
        ) -> Reply;
    }
}

fn counted(reply: raw::Reply) -> Result<usize, Refusal> {
    if reply.refusal == 0 {
        Ok(reply.count as usize)
    } else {
        Err(Refusal {
            number: reply.refusal,
            sheet: reply.sheet,
            line: reply.line,
        })
    }
}

/// Writes what the command prints for this input, a schedule sheet, an empty line and a profile sheet: the listings of all
/// levels, or one line that tells why not. Answers the number of bytes. Refuses with 24, and with 23 where `out` has fewer than
/// `OUTPUT` places.
pub fn answer(input: &[u8], out: &mut [u8]) -> Result<usize, Refusal> {
    if input.len() > INPUT {
        return Err(Refusal {
            number: 24,
            sheet: 0,
            line: 0,
        });
    }
    // SAFETY: each pointer and length are those of a slice.
    counted(unsafe {
        raw::hekudoja_answer(input.as_ptr(), input.len(), out.as_mut_ptr(), out.len())
    })
}

/// Reads a schedule sheet and answers how many passes it has. Refuses with 24, 20, 21 and 22.
pub fn check_schedule(sheet: &[u8]) -> Result<usize, Refusal> {
    // SAFETY: as in `answer`.
    counted(unsafe { raw::hekudoja_check_schedule(sheet.as_ptr(), sheet.len()) })
}

/// Whether the schedules of two sheets are equal, which is where no lawful profile that is longer than both reaches tells them
/// apart. Refuses with 24, 20, 21 and 22, the first sheet first.
pub fn compare(first: &[u8], second: &[u8]) -> Result<bool, Refusal> {
    // SAFETY: as in `answer`.
    let reply = unsafe {
        raw::hekudoja_compare(first.as_ptr(), first.len(), second.as_ptr(), second.len())
    };
    counted(reply).map(|count| count == 1)
}

/// Writes the sheet of the same schedule, with reduced weights, and answers its number of bytes. Refuses with 24, 20, 21 and 22,
/// then with 23.
pub fn reduce_schedule(sheet: &[u8], out: &mut [u8]) -> Result<usize, Refusal> {
    // SAFETY: as in `answer`.
    counted(unsafe {
        raw::hekudoja_reduce_schedule(sheet.as_ptr(), sheet.len(), out.as_mut_ptr(), out.len())
    })
}

/// Reads a profile sheet and answers how many heights it has. Refuses with 24, 20, 21 and 22, then with 23.
pub fn read_profile(sheet: &[u8], heights: &mut [i64]) -> Result<usize, Refusal> {
    // SAFETY: as in `answer`.
    counted(unsafe {
        raw::hekudoja_read_profile(
            sheet.as_ptr(),
            sheet.len(),
            heights.as_mut_ptr(),
            heights.len(),
        )
    })
}

/// Writes the listing of one level, of the schedule of the first sheet and the profile of the second, and answers its number of
/// bytes. Refuses with 24, 20, 21 and 22, the schedule first, then with 4, 7, 9 and 23.
pub fn list_level(
    schedule: &[u8],
    level: usize,
    profile: &[u8],
    out: &mut [u8],
) -> Result<usize, Refusal> {
    // SAFETY: as in `answer`.
    counted(unsafe {
        raw::hekudoja_list_level(
            schedule.as_ptr(),
            schedule.len(),
            level,
            profile.as_ptr(),
            profile.len(),
            out.as_mut_ptr(),
            out.len(),
        )
    })
}

/// Draws one level of the schedule of a sheet from heights: `work` then holds the level's numerators, and 0 behind them up to
/// the number of heights. Refuses with 24, 20, 21 and 22, then with 4, 7, 8, 9 and 10.
pub fn draw(
    schedule: &[u8],
    level: usize,
    heights: &[i64],
    work: &mut [i64],
) -> Result<Drawn, Refusal> {
    let mut scale = 0;
    // SAFETY: as in `answer`, and `scale` is a place of its own.
    let reply = unsafe {
        raw::hekudoja_draw(
            schedule.as_ptr(),
            schedule.len(),
            level,
            heights.as_ptr(),
            heights.len(),
            work.as_mut_ptr(),
            work.len(),
            &mut scale,
        )
    };
    counted(reply).map(|length| Drawn { length, scale })
}

/// Counts the turns of every level of the schedule of a sheet, the ground first: `counts` then begins with one number for each
/// level, none of them larger than the one before it. Answers how many levels there are. Refuses with 24, 20, 21 and 22, then
/// with 7, 8, 9 and 23.
pub fn count_turns(schedule: &[u8], heights: &[i64], counts: &mut [u64]) -> Result<usize, Refusal> {
    // SAFETY: as in `answer`.
    counted(unsafe {
        raw::hekudoja_count_turns(
            schedule.as_ptr(),
            schedule.len(),
            heights.as_ptr(),
            heights.len(),
            counts.as_mut_ptr(),
            counts.len(),
        )
    })
}
