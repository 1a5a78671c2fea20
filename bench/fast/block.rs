//! Text by blocks of sixteen bytes: how far a block can be put as it is. A loop without branches, of which the compiler makes vector code on every machine. By
//! bytes a block is one byte.

use super::character::is_first;

pub const BLOCK: usize = if cfg!(by_bytes) { 1 } else { 16 };

pub type Block = [u8; BLOCK];

/// Puts a block, line feeds as spaces, and says how many of its bytes may stay: those before the first that is no text, or that is the first of more white space.
/// The block that begins one byte later is given too. With WIDE characters of two bytes are text, and the block begins with the first byte of a character.
#[inline(always)]
pub fn put_block<const WIDE: bool>(block: &Block, later: &Block, to: &mut Block) -> usize {
    let mut count = BLOCK as u8;
    for place in 0..BLOCK {
        let (b, next) = (block[place], later[place]);
        let feed = u8::from(b == b'\n');
        let white = u8::from(b == b' ') | feed;
        let white_next = u8::from(next == b' ') | u8::from(next == b'\n');
        let control = if WIDE { b < 32 } else { (b as i8) < 32 };
        let mut stop = (u8::from(control) & !feed) | (white & white_next);
        if WIDE {
            stop |= wide_stop(b, next, place);
        }
        stop |= u8::from(b == b'<') | u8::from(b == b'&') | u8::from(b == b']');
        // Its place, or more than any where it is no stop.
        count = count.min(stop.wrapping_sub(1) | place as u8);
        to[place] = if b == b'\n' { b' ' } else { b };
    }
    usize::from(count)
}

/// Whether a byte begins a character of more than two bytes, or one that ends in the next block, or is not followed as its character asks.
#[inline(always)]
fn wide_stop(b: u8, next: u8, place: usize) -> u8 {
    let of_two = u8::from(b.wrapping_sub(0xc2) < 30);
    let other = u8::from(b > 0xbf) & !of_two;
    let cut = of_two ^ u8::from(!is_first(next));
    other | cut | of_two & u8::from(place == BLOCK - 1)
}

/// The same at the end of a text, where zeros, which stop, fill the blocks.
#[cold]
pub fn put_last_block<const WIDE: bool>(rest: &[u8], to: &mut Block) -> usize {
    let mut bytes = [0; BLOCK + 1];
    let length = rest.len().min(BLOCK);
    bytes[..length].copy_from_slice(&rest[..length]);
    let mut later = [0; BLOCK];
    later.copy_from_slice(&bytes[1..]);
    let mut block = [0; BLOCK];
    block.copy_from_slice(&bytes[..BLOCK]);
    put_block::<WIDE>(&block, &later, to)
}
