//! "Overwrite in the middle" (document 02, T-05).

use crate::file::size;
use crate::layout::Block;
use crate::mount::mount;
use crate::refusal::{number, Refusal};
use crate::write::{file_to_write, Plan};

/// "Add writing at an offset within the present size".
pub fn overwrite(
    image: &mut [u8],
    areas: &[u32],
    base: &[u8],
    path: &[u8],
    offset: u32,
    data: &[u8],
) -> u32 {
    number(try_overwrite(image, areas, base, path, offset, data))
}

fn try_overwrite(
    image: &mut [u8],
    areas: &[u32],
    base: &[u8],
    path: &[u8],
    offset: u32,
    data: &[u8],
) -> Result<(), Refusal> {
    let fs = mount(image, areas)?;
    // "It takes a path and is refused as append is, 13 too".
    let (_, blocks) = file_to_write(&fs, base, path, data)?;
    // "an offset or an end past the size is 14": an offset past it has an end past
    // it, of 0 bytes too. The sum doesn't wrap.
    if u64::from(offset) + data.len() as u64 > size(&blocks) as u64 {
        return Err(Refusal::AfterEnd);
    }
    // 16 of any of them comes before 15.
    let rewritten = rewritten(&blocks, offset as usize, data)?;
    // "all or none, in file order", each where any new record goes. No id is new, so
    // 5 isn't tested again.
    let mut plan = Plan::new(&fs);
    for block in rewritten {
        plan.add(block.bytes())?;
    }
    plan.write(image);
    Ok(())
}

/// "each block that holds a byte of the written range is rewritten with the same id,
/// owner, previous and length, sequence plus one, and its changed data": of a file's
/// blocks, in file order.
pub fn rewritten(blocks: &[Block], offset: usize, data: &[u8]) -> Result<Vec<Block>, Refusal> {
    let mut rewritten = Vec::new();
    let mut start = 0;
    for block in blocks {
        let end = start + block.data.len();
        // The bytes of the range that the block holds, counted in the file.
        let (from, to) = (start.max(offset), end.min(offset + data.len()));
        if from < to {
            let mut block = block.clone();
            block.sequence = next(block.sequence)?;
            block.data[from - start..to - start].copy_from_slice(&data[from - offset..to - offset]);
            rewritten.push(block);
        }
        start = end;
    }
    Ok(rewritten)
}

/// "such a block at sequence ffffffff is 16".
fn next(sequence: u32) -> Result<u32, Refusal> {
    sequence.checked_add(1).ok_or(Refusal::LastSequence)
}
