//! The mode 7 block, made and split, beside plain Rust loops over the same slices.
//!
//! The Rust has one function for it, which makes a block of a map and a set of its own, as long as the longer of the two,
//! and none that splits one. So the loops stand here, the Rust's own way among them: without `unsafe` and intrinsics,
//! with the port's checks and answers.
//!
//! Where a buffer that is written begins within a line of the cache can weigh more than all else, and not for both sides
//! alike. So times are means over four places, and beside the ratio of the means stands the least at any place.

use std::cell::RefCell;
use std::hint::black_box;

use reading::Random;
use rumchivoat::{MODE7_BLOCK, MODE7_HALF, Refusal, mode7_make, mode7_split};

use crate::turn_about;

/// Of tile bytes and map bytes a block.
type Make = fn(&[u8], &[u8], &mut [u8]) -> Result<usize, Refusal>;

/// Of a block tile bytes and map bytes.
type Split = fn(&[u8], &mut [u8], &mut [u8]) -> Result<usize, Refusal>;

/// The loops that make a block, with the names of their columns.
const MAKES: [(&str, Make); 3] = [("get", make_get), ("zip", make_zip), ("fill", make_fill)];

/// The loops that split one.
const SPLITS: [(&str, Split); 2] = [("zip", split_zip), ("index", split_index)];

/// Tile bytes and map bytes: all, 64 tiles, a map of as many entries as a picture of 64x64 tiles has, and none.
const LENGTHS: [(usize, usize); 4] = [(MODE7_HALF, MODE7_HALF), (64 * 64, MODE7_HALF), (MODE7_HALF, 64 * 64), (0, 0)];

/// Where a buffer begins within a line of 64 bytes: what an allocator gives is a multiple of 16.
const PLACES: [usize; 4] = [0, 16, 32, 48];
/// What a buffer has beside the bytes that are written, so that it can begin at any of them.
const SPARE: usize = 48;

/// What the last job left in a buffer.
const LEFT_OVER: u8 = 0xa5;

/// The times of the port and of a loop for one block, at each place.
type Turns = [(f64, f64); PLACES.len()];

/// The checks of making, and the block's part of the buffer.
fn makeable<'a>(tiles: &[u8], map: &[u8], out: &'a mut [u8]) -> Result<&'a mut [u8], Refusal> {
    if tiles.len() > MODE7_HALF || map.len() > MODE7_HALF {
        return Err(Refusal::Length);
    }
    out.get_mut(..MODE7_BLOCK).ok_or(Refusal::Output)
}

/// Each pair asks both inputs whether they have ended.
#[inline(never)]
fn make_get(tiles: &[u8], map: &[u8], out: &mut [u8]) -> Result<usize, Refusal> {
    let block = makeable(tiles, map, out)?;
    for (i, pair) in block.chunks_exact_mut(2).enumerate() {
        pair[0] = map.get(i).copied().unwrap_or(0);
        pair[1] = tiles.get(i).copied().unwrap_or(0);
    }
    Ok(MODE7_BLOCK)
}

/// Where both inputs have a byte, then where one has, then where none has.
#[inline(never)]
fn make_zip(tiles: &[u8], map: &[u8], out: &mut [u8]) -> Result<usize, Refusal> {
    let block = makeable(tiles, map, out)?;
    let (both, one) = (tiles.len().min(map.len()), tiles.len().max(map.len()));
    let (filled, blank) = block.split_at_mut(2 * one);
    let (of_both, of_one) = filled.split_at_mut(2 * both);
    for (pair, (&entry, &pixel)) in of_both.chunks_exact_mut(2).zip(map.iter().zip(tiles)) {
        pair[0] = entry;
        pair[1] = pixel;
    }
    // of the shorter nothing is left
    for (pair, &entry) in of_one.chunks_exact_mut(2).zip(&map[both..]) {
        pair[0] = entry;
        pair[1] = 0;
    }
    for (pair, &pixel) in of_one.chunks_exact_mut(2).zip(&tiles[both..]) {
        pair[0] = 0;
        pair[1] = pixel;
    }
    blank.fill(0);
    Ok(MODE7_BLOCK)
}

/// The Rust's own way (map.rs, `get_snes_mode7_interleaved_data`): a block of 0, and a loop for each input.
#[inline(never)]
fn make_fill(tiles: &[u8], map: &[u8], out: &mut [u8]) -> Result<usize, Refusal> {
    let block = makeable(tiles, map, out)?;
    block.fill(0);
    for (i, &b) in map.iter().enumerate() {
        block[i << 1] = b;
    }
    for (i, &b) in tiles.iter().enumerate() {
        block[(i << 1) + 1] = b;
    }
    Ok(MODE7_BLOCK)
}

/// The checks of splitting, and the halves' parts of the buffers.
fn splittable<'a>(
    block: &[u8],
    tiles: &'a mut [u8],
    map: &'a mut [u8],
) -> Result<(&'a mut [u8], &'a mut [u8]), Refusal> {
    if block.len() != MODE7_BLOCK {
        return Err(Refusal::Length);
    }
    tiles.get_mut(..MODE7_HALF).zip(map.get_mut(..MODE7_HALF)).ok_or(Refusal::Output)
}

/// Each pair with a byte of either half.
#[inline(never)]
fn split_zip(block: &[u8], tiles: &mut [u8], map: &mut [u8]) -> Result<usize, Refusal> {
    let (tiles, map) = splittable(block, tiles, map)?;
    for (pair, (pixel, entry)) in block.chunks_exact(2).zip(tiles.iter_mut().zip(map)) {
        *entry = pair[0];
        *pixel = pair[1];
    }
    Ok(MODE7_HALF)
}

/// Each pair by its number.
#[inline(never)]
fn split_index(block: &[u8], tiles: &mut [u8], map: &mut [u8]) -> Result<usize, Refusal> {
    let (tiles, map) = splittable(block, tiles, map)?;
    for i in 0..MODE7_HALF {
        map[i] = block[2 * i];
        tiles[i] = block[2 * i + 1];
    }
    Ok(MODE7_HALF)
}

/// The times for a block of these bytes. Both sides write the same buffer.
fn making(tiles: &[u8], map: &[u8], make: Make) -> Turns {
    let [mut ours, mut theirs] = [(); 2].map(|()| vec![LEFT_OVER; MODE7_BLOCK + SPARE]);
    assert_eq!(mode7_make(tiles, map, &mut ours), Ok(MODE7_BLOCK));
    assert_eq!(make(tiles, map, &mut theirs), Ok(MODE7_BLOCK));
    assert!(ours == theirs, "both make the same of {} and {} bytes", tiles.len(), map.len());
    let out = RefCell::new(ours);
    let once = |make: Make, place: usize| {
        let out = &mut out.borrow_mut()[place..];
        black_box(make(black_box(tiles), black_box(map), black_box(out)).expect("the lengths are good"));
    };
    PLACES.map(|place| turn_about(1, || once(mode7_make, place), || once(make, place)))
}

/// The times for this block split. Both sides write the same buffers.
fn splitting(block: &[u8], split: Split) -> Turns {
    let [mut ours, mut theirs] = [(); 2].map(|()| [(); 2].map(|()| vec![LEFT_OVER; MODE7_HALF + SPARE]));
    let [tiles, map] = &mut ours;
    assert_eq!(mode7_split(block, tiles, map), Ok(MODE7_HALF));
    let [tiles, map] = &mut theirs;
    assert_eq!(split(block, tiles, map), Ok(MODE7_HALF));
    assert!(ours == theirs, "both split the block alike");
    let halves = RefCell::new(ours);
    let once = |split: Split, place: usize| {
        let [tiles, map] = &mut *halves.borrow_mut();
        let (tiles, map) = (&mut tiles[place..], &mut map[place..]);
        black_box(split(black_box(block), black_box(tiles), black_box(map)).expect("the lengths are good"));
    };
    PLACES.map(|place| turn_about(1, || once(mode7_split, place), || once(split, place)))
}

fn mean(turns: &Turns) -> (f64, f64) {
    let (port, plain): (Vec<f64>, Vec<f64>) = turns.iter().copied().unzip();
    (port.iter().sum::<f64>() / turns.len() as f64, plain.iter().sum::<f64>() / turns.len() as f64)
}

fn ratio(&(port, plain): &(f64, f64)) -> f64 {
    plain / port
}

/// Those of which the port gains least.
fn least<'a>(turns: impl IntoIterator<Item = &'a (f64, f64)>) -> &'a (f64, f64) {
    turns.into_iter().min_by(|a, b| ratio(a).total_cmp(&ratio(b))).expect("there are loops")
}

fn print_head<Loop>(call: &str, loops: &[(&str, Loop)]) {
    print!("{call:<37} {:>9}", "port");
    for (name, _) in loops {
        print!(" {name:>9}");
    }
    println!(" {:>13} {:>9}", "quickest/port", "least");
}

/// The port has its turns with each loop: its time is that beside the quickest.
fn print_line(what: &str, turns: &[Turns]) {
    let means: Vec<(f64, f64)> = turns.iter().map(mean).collect();
    let quickest = least(&means);
    print!("{what:<37} {:>9.3}", quickest.0);
    for (_, plain) in &means {
        print!(" {plain:>9.3}");
    }
    println!(" {:>13.2} {:>9.2}", ratio(quickest), ratio(least(turns.iter().flatten())));
}

/// The port beside each loop: no comparison with the Rust that was ported.
pub fn print_table(random: &mut Random) {
    println!(
        "\nthe port beside a plain Rust loop, three that make the mode 7 block and two that split it; ns for one block\n"
    );
    print_head("make", &MAKES);
    for (tiles, map) in LENGTHS {
        let what = format!("{tiles} tile bytes, {map} map bytes");
        let (tiles, map) = (random.bytes(tiles), random.bytes(map));
        print_line(&what, &MAKES.map(|(_, make)| making(&tiles, &map, make)));
    }
    println!();
    print_head("split", &SPLITS);
    let block = random.bytes(MODE7_BLOCK);
    print_line(&format!("{MODE7_BLOCK} bytes"), &SPLITS.map(|(_, split)| splitting(&block, split)));
}
