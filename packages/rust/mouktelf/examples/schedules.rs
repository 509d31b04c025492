//! Plays each schedule that is named, and compares its report with the text beside it.

use mouktelf::play;
use std::error::Error;
use std::fs;

fn main() -> Result<(), Box<dyn Error>> {
    let mut others = 0;
    let schedules: Vec<String> = std::env::args().skip(1).collect();
    for name in &schedules {
        let wanted = fs::read(name.replace(".json", ".txt"))?;
        if play(&fs::read(name)?) != Ok(wanted) {
            eprintln!("{name}: another text");
            others += 1;
        }
    }
    println!("{} schedules, {others} with another text", schedules.len());
    assert_eq!(others, 0);
    Ok(())
}
