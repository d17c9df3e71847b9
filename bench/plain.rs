//! An independent implementation in plain Rust, as a careful programmer would write it without proofs: what the proved
//! library is timed against.

pub const MOST_BYTES: usize = 32_768;
const LARGEST_SCALE: u64 = 1 << 40;

/// Two or three weights, in lowest terms.
#[derive(Clone, Copy, PartialEq, Eq, Debug)]
pub struct Pass {
    weights: [u32; 3],
    taps: usize,
}

impl Pass {
    fn weights(&self) -> &[u32] {
        &self.weights[..self.taps]
    }

    fn scale(&self) -> u64 {
        self.weights().iter().map(|&w| u64::from(w)).sum()
    }

    fn is_admitted(&self) -> bool {
        let [a, b, c] = self.weights;
        self.taps == 2 || b * b >= 4 * a * c
    }

    fn reduced(mut self) -> Pass {
        let divisor = self.weights().iter().fold(0, |d, &w| gcd(d, w));
        for w in &mut self.weights {
            *w /= divisor;
        }
        self
    }
}

fn gcd(a: u32, b: u32) -> u32 {
    if b == 0 { a } else { gcd(b, a % b) }
}

/// What is wrong with a sheet: its number and line.
pub type Fault = (u64, u64);

fn natural(text: &[u8]) -> Option<u32> {
    match text {
        [] => None,
        [b'0'] => Some(0),
        [b'0', ..] => None,
        digits => digits.iter().try_fold(0u32, |n, &d| {
            d.is_ascii_digit()
                .then(|| n.saturating_mul(10).saturating_add(u32::from(d - b'0')))
        }),
    }
}

fn integer(text: &[u8]) -> Option<i64> {
    match text {
        [b'-', digits @ ..] => natural(digits).filter(|&n| n > 0).map(|n| -i64::from(n)),
        digits => natural(digits).map(i64::from),
    }
}

/// The value lines of a sheet, each with its number.
fn lines<'a>(sheet: &'a [u8], names: &[u8]) -> Result<impl Iterator<Item = (u64, Option<&'a [u8]>)>, Fault> {
    if sheet.len() > MOST_BYTES {
        return Err((24, 0));
    }
    let mut rest = sheet.strip_prefix(names).and_then(|r| r.strip_prefix(b"\n")).ok_or((20, 1))?;
    let mut number = 1;
    Ok(std::iter::from_fn(move || {
        if rest.is_empty() {
            return None;
        }
        number += 1;
        Some(match rest.iter().position(|&b| b == b'\n') {
            Some(end) => {
                let line = &rest[..end];
                rest = &rest[end + 1..];
                (number, Some(line))
            }
            None => {
                rest = &[];
                (number, None)
            }
        })
    }))
}

fn pass_of(line: &[u8]) -> Option<Pass> {
    let mut fields = line.split(|&b| b == b',');
    let (n, a, b, c) = (fields.next()?, fields.next()?, fields.next()?, fields.next()?);
    if fields.next().is_some() {
        return None;
    }
    match n {
        b"2" if c.is_empty() => Some(Pass { weights: [natural(a)?, natural(b)?, 0], taps: 2 }),
        b"3" => Some(Pass { weights: [natural(a)?, natural(b)?, natural(c)?], taps: 3 }),
        _ => None,
    }
}

pub fn read_schedule(sheet: &[u8]) -> Result<Vec<Pass>, Fault> {
    let mut passes = Vec::with_capacity(24);
    let mut scale = 1;
    for (number, line) in lines(sheet, b"taps,a,b,c")? {
        let pass = line.and_then(pass_of).ok_or((21, number))?;
        if pass.weights.iter().any(|&w| w > 1000) || pass.scale() == 0 || !pass.is_admitted() {
            return Err((22, number));
        }
        let pass = pass.reduced();
        scale *= pass.scale();
        if passes.len() == 24 || scale > LARGEST_SCALE {
            return Err((22, number));
        }
        passes.push(pass);
    }
    Ok(passes)
}

pub fn read_profile(sheet: &[u8], heights: &mut Vec<i64>) -> Result<(), Fault> {
    heights.clear();
    for (number, line) in lines(sheet, b"station,height")? {
        let (station, height) = line
            .and_then(|l| {
                let comma = l.iter().position(|&b| b == b',')?;
                Some((natural(&l[..comma])?, integer(&l[comma + 1..])?))
            })
            .ok_or((21, number))?;
        if heights.len() == 2048 || station as usize != heights.len() || height.abs() > 100_000 {
            return Err((22, number));
        }
        heights.push(height);
    }
    Ok(())
}

fn push_number(mut n: u64, out: &mut Vec<u8>) {
    let mut digits = [0; 20];
    let mut at = 20;
    loop {
        at -= 1;
        digits[at] = b'0' + (n % 10) as u8;
        n /= 10;
        if n == 0 {
            break;
        }
    }
    out.extend_from_slice(&digits[at..]);
}

pub fn write_schedule(passes: &[Pass], out: &mut Vec<u8>) {
    out.clear();
    out.extend_from_slice(b"taps,a,b,c\n");
    for pass in passes {
        push_number(pass.taps as u64, out);
        for &w in pass.weights() {
            out.push(b',');
            push_number(u64::from(w), out);
        }
        out.extend_from_slice(if pass.taps == 2 { b",\n" } else { b"\n" });
    }
}

/// Lays a pass on the samples, in place, and answers how many are left.
fn lay(pass: &Pass, work: &mut [i64], count: usize) -> usize {
    let [a, b, c] = pass.weights.map(i64::from);
    if pass.taps == 2 {
        for i in 0..count - 1 {
            work[i] = a * work[i] + b * work[i + 1];
        }
    } else {
        for i in 0..count - 2 {
            work[i] = a * work[i] + b * work[i + 1] + c * work[i + 2];
        }
    }
    let left = count + 1 - pass.taps;
    work[left..count].fill(0);
    left
}

/// The length and the scale of the last level, which `work` then begins with.
pub fn draw(passes: &[Pass], heights: &[i64], work: &mut [i64]) -> Result<(usize, u64), Fault> {
    check(passes, heights)?;
    work[..heights.len()].copy_from_slice(heights);
    let mut count = heights.len();
    let mut scale = 1;
    for pass in passes {
        count = lay(pass, work, count);
        scale *= pass.scale();
    }
    Ok((count, scale))
}

fn check(passes: &[Pass], heights: &[i64]) -> Result<(), Fault> {
    if heights.is_empty() || heights.len() > 2048 {
        return Err((7, 0));
    }
    if heights.iter().any(|h| h.abs() > 100_000) {
        return Err((8, 0));
    }
    if heights.len() <= passes.iter().map(|p| p.taps - 1).sum() {
        return Err((9, 0));
    }
    Ok(())
}

#[derive(Clone, Copy)]
pub struct Turn {
    pub ridge: bool,
    pub place: usize,
    pub numerator: i64,
}

/// The ridges and hollows of the samples.
pub fn find_turns(samples: &[i64], turns: &mut Vec<Turn>) {
    turns.clear();
    let mut rising = None;
    let mut start = 0;
    for i in 1..samples.len() {
        let (last, next) = (samples[i - 1], samples[i]);
        if next == last {
            continue;
        }
        let up = next > last;
        if rising == Some(!up) {
            turns.push(Turn { ridge: !up, place: start, numerator: last });
        }
        rising = Some(up);
        start = i;
    }
}

/// How many turns each level has.
pub fn count_turns(passes: &[Pass], heights: &[i64], work: &mut [i64], turns: &mut Vec<Turn>, counts: &mut [u64]) -> Result<usize, Fault> {
    check(passes, heights)?;
    work[..heights.len()].copy_from_slice(heights);
    let mut count = heights.len();
    find_turns(&work[..count], turns);
    counts[0] = turns.len() as u64;
    for (k, pass) in passes.iter().enumerate() {
        count = lay(pass, work, count);
        find_turns(&work[..count], turns);
        counts[k + 1] = turns.len() as u64;
    }
    Ok(passes.len() + 1)
}

fn taps_of(passes: &[Pass]) -> Vec<u64> {
    let mut taps = vec![1];
    for pass in passes {
        let mut next = vec![0; taps.len() + pass.taps - 1];
        for (i, t) in taps.iter().enumerate() {
            for (j, &w) in pass.weights().iter().enumerate() {
                next[i + j] += t * u64::from(w);
            }
        }
        taps = next;
    }
    taps
}

/// Whether no profile tells the two schedules apart: their taps are the same. (Reduced passes have reduced taps.)
pub fn compare(x: &[Pass], y: &[Pass]) -> bool {
    taps_of(x) == taps_of(y)
}

fn list(level: u64, turns: &[Turn], scale: u64, out: &mut Vec<u8>) {
    if level == 0 {
        out.extend_from_slice(b"level,place,kind,height\n");
    }
    let scale = scale as i64;
    for turn in turns {
        push_number(level, out);
        out.push(b',');
        push_number(turn.place as u64, out);
        out.extend_from_slice(if turn.ridge { b",ridge," } else { b",hollow," });
        let height = (2 * turn.numerator + scale).div_euclid(2 * scale);
        if height < 0 {
            out.push(b'-');
        }
        push_number(height.unsigned_abs(), out);
        out.push(b'\n');
    }
}

fn reject(word: &str, fault: Fault, out: &mut Vec<u8>) {
    out.extend_from_slice(word.as_bytes());
    out.push(b',');
    push_number(fault.0, out);
    out.push(b',');
    push_number(fault.1, out);
    out.push(b'\n');
}

/// The two sheets of an input.
fn part(input: &[u8]) -> (&[u8], &[u8]) {
    if input.first() == Some(&b'\n') {
        return (&[], &input[1..]);
    }
    match input.windows(2).position(|w| w == b"\n\n") {
        Some(i) => (&input[..i + 1], &input[i + 2..]),
        None => (input, &[]),
    }
}

/// The buffers that the command reuses from call to call.
#[derive(Default)]
pub struct Room {
    heights: Vec<i64>,
    work: Vec<i64>,
    turns: Vec<Turn>,
}

/// The whole command on bytes.
pub fn answer(input: &[u8], room: &mut Room, out: &mut Vec<u8>) {
    out.clear();
    if input.len() > MOST_BYTES {
        return reject("input", (24, 0), out);
    }
    let (first, second) = part(input);
    let passes = match read_schedule(first) {
        Ok(passes) => passes,
        Err(fault) => return reject("schedule", fault, out),
    };
    if let Err(fault) = read_profile(second, &mut room.heights) {
        return reject("profile", fault, out);
    }
    if let Err(fault) = check(&passes, &room.heights) {
        return reject("draw", fault, out);
    }
    room.work.clear();
    room.work.extend_from_slice(&room.heights);
    let mut count = room.work.len();
    let mut scale = 1;
    find_turns(&room.work, &mut room.turns);
    list(0, &room.turns, scale, out);
    for (k, pass) in passes.iter().enumerate() {
        count = lay(pass, &mut room.work, count);
        scale *= pass.scale();
        find_turns(&room.work[..count], &mut room.turns);
        list(k as u64 + 1, &room.turns, scale, out);
    }
}
