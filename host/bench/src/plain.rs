//! What stands beside matching: plain loops over the same table, and one reading of the room.

use palgondur::limits::{CELLS_AT, CLASSES_AT, MARKS_AT, ROOM, WAYS_AT};

/// Whether the machine of a room accepts the text: the natural safe loop. The room is not judged.
#[inline(never)]
pub fn safe(room: &[u8], text: &[u8]) -> bool {
    let k = room[1] as usize;
    let classes = &room[CLASSES_AT..MARKS_AT];
    let cells = &room[CELLS_AT..WAYS_AT];
    let mut q = 0;
    for &byte in text {
        q = cells[q * k + classes[byte as usize] as usize] as usize;
    }
    room[MARKS_AT + q] == 1
}

/// The same with no check of bounds in the loop.
///
/// # Safety
/// The room is sound.
#[inline(never)]
pub unsafe fn unchecked(room: &[u8], text: &[u8]) -> bool {
    let k = room[1] as usize;
    let classes = &room[CLASSES_AT..MARKS_AT];
    let cells = &room[CELLS_AT..WAYS_AT];
    let mut q = 0;
    for &byte in text {
        let class = unsafe { *classes.get_unchecked(byte as usize) };
        q = unsafe { *cells.get_unchecked(q * k + class as usize) } as usize;
    }
    room[MARKS_AT + q] == 1
}

/// The sum of the room's bytes in one byte, whatever overflows: the room read once, many bytes at a time.
#[inline(never)]
pub fn read(room: &[u8]) -> u8 {
    let room = &room[..ROOM];
    room.iter().fold(0, |sum, &byte| sum.wrapping_add(byte))
}

/// The sum of the room's bytes in 64 bits.
#[inline(never)]
pub fn sum(room: &[u8]) -> u64 {
    room[..ROOM].iter().map(|&byte| u64::from(byte)).sum()
}
