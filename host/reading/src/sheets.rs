//! "The program reads eight lines in this order .."

use crate::pictures::{Picture, Settings, convert};
use crate::{Answer, MODES};

/// "Each key=text and a newline: mode, depth, flip, discard, limit, palette, columns, rows."
pub const KEYS: [&str; 8] = ["mode", "depth", "flip", "discard", "limit", "palette", "columns", "rows"];

/// "The tile buffer has 65,536 bytes."
const TILE_BYTES: usize = 65_536;

/// The map is as long as any map of "columns and rows at most 32": two bytes an entry.
const MAP_BYTES: usize = 2 * 32 * 32;

/// All that the program writes, and the number that it tells.
#[derive(Debug, Clone, PartialEq, Eq)]
pub struct Text {
    /// The number of a refusal; 0 for a report.
    pub refusal: u32,
    /// The bytes.
    pub bytes: Vec<u8>,
}

/// "Decimal up to 4,294,967,295 with no leading zero, 0 as `0`": the text is what its own number is written as.
fn number(text: &[u8]) -> Option<u32> {
    let text = std::str::from_utf8(text).ok()?;
    text.parse().ok().filter(|number: &u32| number.to_string() == text)
}

/// A number that is at most `most`.
fn number_up_to(most: u32, text: &[u8]) -> Option<u32> {
    number(text).filter(|&number| number <= most)
}

/// "Flip and discard 0 or 1."
fn flag(text: &[u8]) -> Option<bool> {
    number_up_to(1, text).map(|number| number == 1)
}

/// "Columns and rows at most 32."
fn side(text: &[u8]) -> Option<u32> {
    number_up_to(32, text)
}

/// "Mode names are compared byte by byte."
fn mode(text: &[u8]) -> Option<u32> {
    (0..).zip(&MODES).find(|(_, row)| row.name.as_bytes() == text).map(|(number, _)| number)
}

/// The texts of the eight lines, and what comes after the eighth newline.
fn lines(input: &[u8]) -> Option<([&[u8]; 8], &[u8])> {
    let mut rest = input;
    let mut texts = [rest; 8];
    for (key, text) in KEYS.into_iter().zip(&mut texts) {
        let end = rest.iter().position(|&byte| byte == b'\n')?;
        *text = rest[..end].strip_prefix(key.as_bytes())?.strip_prefix(b"=")?;
        rest = &rest[end + 1..];
    }
    Some((texts, rest))
}

/// The settings and the pixels; nothing where the sheet is not one.
fn sheet(input: &[u8]) -> Option<(Settings, &[u8])> {
    let ([name, depth, flip, discard, limit, palette, columns, rows], pixels) = lines(input)?;
    let settings = Settings {
        mode: mode(name)?,
        depth: number(depth)?,
        flip: flag(flip)?,
        discard: flag(discard)?,
        limit: number(limit)?,
        palette: number(palette)?,
        columns: side(columns)?,
        rows: side(rows)?,
    };
    // "Then come exactly 64 x columns x rows pixel bytes."
    let asked = 64 * settings.columns * settings.rows;
    (pixels.len() == asked as usize).then_some((settings, pixels))
}

/// The lines of the report, as document 01 shows them.
fn report(settings: Settings, picture: Picture) -> String {
    let Settings { mode, depth, flip, discard, columns, rows, .. } = settings;
    let Picture { tiles, discarded, tile_bytes, map_bytes } = picture;
    let (mode, flip, discard) = (MODES[mode as usize].name, u8::from(flip), u8::from(discard));
    format!(
        "mode={mode}\ndepth={depth}\nflip={flip}\ndiscard={discard}\ncolumns={columns}\nrows={rows}\n\
         tiles={tiles}\ndiscarded={discarded}\ntilebytes={tile_bytes}\nmapbytes={map_bytes}\n"
    )
}

/// The report, then the tile bytes, then the map bytes. "Anything else, an unknown mode name included, is 14; the other
/// numbers follow the table."
fn reported(input: &[u8]) -> Answer<Vec<u8>> {
    let (settings, pixels) = sheet(input).ok_or(14_u32)?;
    let (mut tiles, mut map) = (vec![0; TILE_BYTES], vec![0; MAP_BYTES]);
    let picture = convert(settings, pixels, &mut tiles, &mut map)?;
    let lines = report(settings, picture);
    Ok([lines.as_bytes(), &tiles[..picture.tile_bytes], &map[..picture.map_bytes]].concat())
}

/// What the program writes. "A refusal writes `refused=N` and a newline."
pub fn run(input: &[u8]) -> Text {
    match reported(input) {
        Ok(bytes) => Text { refusal: 0, bytes },
        Err(refusal) => Text { refusal, bytes: format!("refused={refusal}\n").into_bytes() },
    }
}
