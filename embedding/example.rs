//! What a planning tool does with the library. With an argument, the sample is read from that file.
mod hekudoja;

use hekudoja::Refusal;
use std::error::Error;
use std::fmt;

const SCHEDULE: &[u8] = b"taps,a,b,c\n3,1,2,1\n";
const PROFILE: &[u8] = b"station,height\n0,0\n1,0\n2,8\n3,0\n4,6\n5,0\n6,0\n";

impl fmt::Display for Refusal {
    fn fmt(&self, f: &mut fmt::Formatter<'_>) -> fmt::Result {
        write!(
            f,
            "refusal {}, sheet {}, line {}",
            self.number, self.sheet, self.line
        )
    }
}

impl Error for Refusal {}

fn print_text(what: &str, text: &[u8]) -> Result<(), Box<dyn Error>> {
    print!("{what}:\n{}", std::str::from_utf8(text)?);
    Ok(())
}

fn print_refusal(what: &str, result: Result<usize, Refusal>) {
    match result {
        Ok(count) => println!("{what}: {count}"),
        Err(refusal) => println!("{what}: {refusal}"),
    }
}

fn print_numbers<T: fmt::Display>(what: &str, numbers: &[T]) {
    print!("{what}:");
    for number in numbers {
        print!(" {number}");
    }
    println!();
}

fn list_sample(path: Option<String>, out: &mut [u8]) -> Result<(), Box<dyn Error>> {
    let text = match path {
        Some(path) => std::fs::read(path)?,
        None => [SCHEDULE, b"\n", PROFILE].concat(),
    };
    let count = hekudoja::answer(&text, out)?;
    print_text("all levels", &out[..count])
}

fn check_schedules() -> Result<(), Refusal> {
    println!("passes: {}", hekudoja::check_schedule(SCHEDULE)?);
    print_refusal(
        "bad schedule",
        hekudoja::check_schedule(b"taps,a,b,c\n2,1,1,\n3,1,0,1\n"),
    );
    Ok(())
}

fn compare_with(what: &str, second: &[u8]) -> Result<(), Refusal> {
    let same = hekudoja::compare(SCHEDULE, second)?;
    println!(
        "1,2,1 and {what}: {}",
        if same { "equal" } else { "different" }
    );
    Ok(())
}

fn reduce(out: &mut [u8]) -> Result<(), Box<dyn Error>> {
    let count = hekudoja::reduce_schedule(b"taps,a,b,c\n3,2,4,2\n", out)?;
    print_text("2,4,2 reduced", &out[..count])
}

fn list_one_level(out: &mut [u8]) -> Result<(), Box<dyn Error>> {
    let count = hekudoja::list_level(SCHEDULE, 1, PROFILE, out)?;
    print_text("level 1", &out[..count])?;
    print_refusal("level 2", hekudoja::list_level(SCHEDULE, 2, PROFILE, out));
    Ok(())
}

fn draw_and_count() -> Result<(), Refusal> {
    let mut heights = [0; hekudoja::HEIGHTS];
    let mut work = [0; hekudoja::HEIGHTS];
    let mut counts = [0; hekudoja::LEVELS];
    let n = hekudoja::read_profile(PROFILE, &mut heights)?;
    let drawn = hekudoja::draw(SCHEDULE, 1, &heights[..n], &mut work)?;
    let levels = hekudoja::count_turns(SCHEDULE, &heights[..n], &mut counts)?;
    print_numbers(
        &format!("level 1 over {}", drawn.scale),
        &work[..drawn.length],
    );
    print_numbers("turns by level", &counts[..levels]);
    Ok(())
}

fn show_refusals(out: &mut [u8]) {
    let long_text = [0; hekudoja::INPUT + 1];
    print_refusal("overlong input", hekudoja::answer(&long_text, out));
    print_refusal("overlong sheet", hekudoja::check_schedule(&long_text));
    print_refusal("empty sheet", hekudoja::check_schedule(b""));
    print_refusal("short output", hekudoja::answer(SCHEDULE, &mut out[..100]));
}

fn main() -> Result<(), Box<dyn Error>> {
    let mut out = vec![0; hekudoja::OUTPUT];
    list_sample(std::env::args().nth(1), &mut out)?;
    check_schedules()?;
    compare_with("1,1 twice", b"taps,a,b,c\n2,1,1,\n2,1,1,\n")?;
    compare_with("1,1 once", b"taps,a,b,c\n2,1,1,\n")?;
    reduce(&mut out)?;
    list_one_level(&mut out)?;
    draw_and_count()?;
    show_refusals(&mut out);
    Ok(())
}
