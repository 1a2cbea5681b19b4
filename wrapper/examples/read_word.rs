//! Reads one word back: that of a breath of 642 ticks, 277 of them in, as the recorder stores it.

use slash::{Format, Stop};

fn main() -> Result<(), Stop> {
    let number = slash::read(Format::fixed(15), 0x0115_0282)?;
    println!("{number}");
    Ok(())
}
