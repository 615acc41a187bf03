//! The palette and the three opcodes that change it (01, "Palette").
//!
//! Each opcode is first read as the list of entries that it stores, which meets every refusal;
//! only then is the palette touched.

use crate::refusal::{self, Refusal};

/// Entries of the palette.
pub const ENTRIES: usize = 256;
/// Bytes of the palette: red, green and blue of each entry.
pub const LENGTH: usize = ENTRIES * COMPONENTS;

const COMPONENTS: usize = 3;
const MAX_COMPONENT: u8 = 63;
/// Range of the second colour of a gradient (003); that of red is the full one.
const MAX_GRADIENT_COLUMN: usize = 39;
/// Entries that one mask byte of opcode 0D stands for.
const GROUP: usize = 8;

/// One store to the palette.
#[derive(Clone, Copy, Debug, PartialEq, Eq)]
pub struct Store {
    /// Which byte.
    pub index: usize,
    /// Its new value.
    pub value: u8,
}

/// One palette entry with the colour to store.
#[derive(Clone, Copy, Debug, PartialEq, Eq)]
pub struct Entry {
    /// The entry's number.
    pub index: usize,
    /// Its red, green and blue.
    pub colour: [u8; COMPONENTS],
}

/// Opcode 0B, "create gradient": a red-blue and a red-green gradient. The red-blue one is stored
/// first, so where they overlap red-green stays.
pub fn create_gradient(body: &[u8], palette: &mut [u8]) -> Result<(), Refusal> {
    check_lent(palette)?;
    store(&gradient_entries(body)?, palette);
    Ok(())
}

/// The entries that opcode 0B stores, in order.
pub fn gradient_entries(body: &[u8]) -> Result<Vec<Entry>, Refusal> {
    let &[base_rb, rows_rb, columns_rb, base_rg, rows_rg, columns_rg] = body else {
        return Err(Refusal::new(refusal::BODY_LENGTH));
    };
    let mut entries = gradient(base_rb, rows_rb, columns_rb, |red, blue| [red, 0, blue])?;
    entries.extend(gradient(base_rg, rows_rg, columns_rg, |red, green| [red, green, 0])?);
    Ok(entries)
}

/// Opcode 0C, "set palette": a run of entries.
pub fn set_palette(body: &[u8], palette: &mut [u8]) -> Result<(), Refusal> {
    check_lent(palette)?;
    store(&palette_entries(body)?, palette);
    Ok(())
}

/// The entries that opcode 0C stores, in order.
pub fn palette_entries(body: &[u8]) -> Result<Vec<Entry>, Refusal> {
    let &[start_low, start_high, count_low, count_high, ref colours @ ..] = body else {
        return Err(Refusal::new(refusal::BODY_LENGTH));
    };
    let start = usize::from(u16::from_le_bytes([start_low, start_high]));
    let count = usize::from(u16::from_le_bytes([count_low, count_high]));
    if colours.len() != count * COMPONENTS {
        return Err(Refusal::new(refusal::BODY_LENGTH));
    }
    check_range(start, count)?;
    let entries: Vec<Entry> = (start..).zip(colours_of(colours)).map(entry).collect();
    check_components(&entries)?;
    Ok(entries)
}

/// Opcode 0D, "set palette entries compressed": 32 groups of a mask byte and the colours of the
/// entries whose bit is one, lowest bit first.
pub fn set_palette_compressed(body: &[u8], palette: &mut [u8]) -> Result<(), Refusal> {
    check_lent(palette)?;
    store(&compressed_entries(body)?, palette);
    Ok(())
}

/// The entries that opcode 0D stores, in order.
pub fn compressed_entries(body: &[u8]) -> Result<Vec<Entry>, Refusal> {
    let mut entries = Vec::new();
    let mut rest = body;
    for first in (0..ENTRIES).step_by(GROUP) {
        let too_short = Refusal::new(refusal::BODY_LENGTH);
        let (&mask, behind) = rest.split_first().ok_or(too_short)?;
        let length = mask.count_ones() as usize * COMPONENTS;
        let colours = behind.get(..length).ok_or(too_short)?;
        let indices = (0..GROUP).filter(|bit| mask >> bit & 1 == 1).map(|bit| first + bit);
        entries.extend(indices.zip(colours_of(colours)).map(entry));
        rest = &behind[length..];
    }
    if !rest.is_empty() {
        return Err(Refusal::new(refusal::BODY_LENGTH));
    }
    check_components(&entries)?;
    Ok(entries)
}

/// The entries of one gradient, row by row; none where a count is zero, and then the base is not
/// tested (01).
fn gradient(
    base: u8,
    rows: u8,
    columns: u8,
    colour: impl Fn(u8, u8) -> [u8; COMPONENTS],
) -> Result<Vec<Entry>, Refusal> {
    let (base, rows, columns) = (usize::from(base), usize::from(rows), usize::from(columns));
    let count = rows * columns;
    if count == 0 {
        return Ok(Vec::new());
    }
    check_range(base, count)?;
    let entry = |n: usize| Entry {
        index: base + n,
        colour: colour(
            ramp(usize::from(MAX_COMPONENT), n / columns, rows),
            ramp(MAX_GRADIENT_COLUMN, n % columns, columns),
        ),
    };
    Ok((0..count).map(entry).collect())
}

/// Step `i` of a ramp from 0 to `top` in `steps` steps, rounded down; a single step is 0.
fn ramp(top: usize, i: usize, steps: usize) -> u8 {
    let value = if steps > 1 { top * i / (steps - 1) } else { 0 };
    value as u8 // at most `top`, as i is below steps
}

fn colours_of(bytes: &[u8]) -> impl Iterator<Item = [u8; COMPONENTS]> + '_ {
    bytes.chunks_exact(COMPONENTS).map(|c| [c[0], c[1], c[2]])
}

fn entry((index, colour): (usize, [u8; COMPONENTS])) -> Entry {
    Entry { index, colour }
}

fn check_lent(palette: &[u8]) -> Result<(), Refusal> {
    if palette.len() == LENGTH {
        Ok(())
    } else {
        Err(Refusal::new(refusal::LENT))
    }
}

fn check_range(start: usize, count: usize) -> Result<(), Refusal> {
    if start + count <= ENTRIES {
        Ok(())
    } else {
        Err(Refusal::new(refusal::PALETTE))
    }
}

fn check_components(entries: &[Entry]) -> Result<(), Refusal> {
    let in_range = |entry: &Entry| entry.colour.iter().all(|&c| c <= MAX_COMPONENT);
    if entries.iter().all(in_range) {
        Ok(())
    } else {
        Err(Refusal::new(refusal::PALETTE))
    }
}

/// The stores of these entries, in their order: red, green and blue of each (02, W11).
pub fn stores(entries: &[Entry]) -> Vec<Store> {
    let bytes = |entry: &Entry| (entry.index * COMPONENTS..).zip(entry.colour);
    entries.iter().flat_map(bytes).map(|(index, value)| Store { index, value }).collect()
}

fn store(entries: &[Entry], palette: &mut [u8]) {
    for Store { index, value } in stores(entries) {
        palette[index] = value;
    }
}
