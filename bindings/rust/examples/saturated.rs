//! Prints where a sheet saturates: each tile of 16 by 16 texels in which a colour channel reaches 0 or 255. Takes the path of a TXR
//! picture; without one, it is the sprayed sheet among the samples.

mod txr;

use std::error::Error;
use std::{env, process};

const SHEET: &str = concat!(env!("CARGO_MANIFEST_DIR"), "/../../samples/sprayed_sheet.txr");

fn list(path: &str) -> Result<(), Box<dyn Error>> {
    let ranges = txr::opened(path)?.ranges()?;
    let (count, all) = (ranges.saturated().count(), ranges.tiles().count());
    println!("{} by {} texels, {count} of {all} tiles saturated", ranges.width(), ranges.height());
    for tile in ranges.saturated() {
        let [red, green, blue] = [0, 1, 2].map(|c| format!("{} to {}", tile.smallest[c], tile.largest[c]));
        println!("({}, {}), {} by {}: red {red}, green {green}, blue {blue}", tile.x, tile.y, tile.width, tile.height);
    }
    Ok(())
}

fn main() {
    let path = env::args().nth(1).unwrap_or_else(|| SHEET.into());
    if let Err(why) = list(&path) {
        eprintln!("{path}: {why}");
        process::exit(1);
    }
}
