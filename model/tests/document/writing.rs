//! Format, create, append and unlink: refusals 5, 8 to 13, 15 and 16.

use nffs_model::compare::bytes;
use nffs_model::forge::Flash;
use nffs_model::layout::{AreaHeader, Block, Inode, NONE, ROOT};

use crate::calls;
use crate::common::*;

const HEADER: &str = "e2318ab98c42b07f5382e0ac8efc85b1";

/// "The longest, first among equals, is scratch; the others get ids 0, 1, ...
/// in order." Bytes outside the areas stay.
#[test]
fn format_writes_headers_and_the_root() {
    let mut image = vec![0x33; 700];
    let areas = [10, 128, 400, 200, 150, 200, 640, 0];
    assert_eq!(calls::format(&mut image, &areas), 0);
    let expected = bytes(&format!(
        "33*10 {HEADER} 8000000000000000 c08b5f920000000000000000ffffffff00001751 ff*84 33*12
         {HEADER} c800000000000001 ff*176 33*50
         {HEADER} c8000000000000ff ff*176 33*100"
    ));
    assert_eq!(image, expected);
    let r = calls::report(&image, &areas);
    assert_eq!((r.number, r.inodes, r.live, r.stretches, r.skipped), (0, 1, 1, 0, 0));
}

#[test]
fn format_of_a_pair_makes_the_first_scratch() {
    let mut image = vec![0; 256];
    assert_eq!(calls::format(&mut image, &[128, 128, 0, 128]), 0);
    assert_eq!((image[128 + 23], image[23]), (255, 0));
}

#[test]
fn create_answers_the_smallest_unnamed_id() {
    let mut flash = rooted(4096);
    assert_eq!(create(&mut flash, "/d", 0), Ok(1));
    assert_eq!(create(&mut flash, "/f", 1), Ok(A));
    assert_eq!(create(&mut flash, "/d/f", 1), Ok(B));
    assert_eq!(create(&mut flash, "/d/d", 0), Ok(2));
    assert_eq!(create(&mut flash, "/d/other kind", 7), Ok(B + 1));
    assert_eq!(find(&flash, "/d/d"), Ok(2));
    assert_eq!(report(&flash).live, 6);
}

/// Ids that accepted records name as parent or owner aren't used again, nor
/// that of a deleted directory whose old children name it.
#[test]
fn named_ids_are_not_used() {
    let mut flash = rooted(4096);
    flash.inode(1, A, 0, 1, b"names 1 as parent");
    flash.block(1, BLOCK + 1, 0, B, BLOCK, b"names b and the first block");
    assert_eq!(create(&mut flash, "/d", 0), Ok(2));
    assert_eq!(create(&mut flash, "/f", 1), Ok(B + 1));
    assert_eq!(append(&mut flash, "/f", b"data"), 0);
    let placed = Block::new(BLOCK + 2, 0, B + 1, NONE, b"data").bytes();
    assert!(area(&flash, 1).windows(placed.len()).any(|window| window == placed));
}

/// Scratch doesn't name ids.
#[test]
fn scratch_names_nothing() {
    let mut flash = rooted(4096);
    flash.inode(0, A, 0, 1, b"scratch");
    assert_eq!(create(&mut flash, "/d", 0), Ok(1));
    assert_eq!(create(&mut flash, "/f", 1), Ok(A));
}

#[test]
fn a_base_path_for_create() {
    let mut flash = rooted(4096);
    let Flash { image, areas, .. } = &mut flash;
    assert_eq!(calls::create(image, areas, b"/", b"d", 0).id, 1);
    assert_eq!(calls::create(image, areas, b"/d", b"f", 1).id, A);
    assert_eq!(calls::append(image, areas, b"/d", b"f", b"data"), 0);
    assert_eq!(calls::append(image, areas, b"d", b"f", b"data"), 8);
    assert_eq!(contents(&flash, "/d/f"), Ok(b"data".to_vec()));
    assert_eq!(calls::unlink(&mut flash.image, &flash.areas, b"/d", b"f"), 0);
    assert_eq!(find(&flash, "/d/f"), Err(9));
}

#[test]
fn create_walks_all_but_the_last_name() {
    let mut flash = rooted(4096);
    flash.inode(1, A, 0, ROOT, b"f");
    flash.inode(1, 1, 0, ROOT, b"twice");
    flash.inode(1, 2, 0, ROOT, b"twice");
    assert_eq!(create(&mut flash, "/no/x", 1), Err(9));
    assert_eq!(create(&mut flash, "/twice/x", 1), Err(10));
    assert_eq!(create(&mut flash, "/f/x", 1), Err(11));
    assert_eq!(create(&mut flash, "/f/x/y", 1), Err(11));
    assert_eq!(create(&mut flash, "/f", 1), Err(12));
    assert_eq!(create(&mut flash, "/f", 0), Err(12));
    assert_eq!(create(&mut flash, "/twice", 1), Err(12));
}

/// 12 counts live children only.
#[test]
fn dead_and_orphan_names_do_not_block() {
    let mut flash = rooted(4096);
    assert_eq!(create(&mut flash, "/a", 1), Ok(A));
    assert_eq!(unlink(&mut flash, "/a"), 0);
    flash = with_next(flash);
    flash.inode(1, 9, 0, 10, b"a");
    assert_eq!(create(&mut flash, "/a", 1), Ok(B));
}

/// Writing goes on behind what the calls wrote in area 1.
fn with_next(flash: Flash) -> Flash {
    let start = flash.offset(1);
    let used = area(&flash, 1).iter().rposition(|byte| *byte != 0xff).map_or(0, |at| at + 1);
    let mut next = Flash::over(flash.image.clone(), flash.areas.clone());
    next.image = flash.image;
    next.skip(1, used - 24);
    assert_eq!(next.next(1) + start, start + used);
    next
}

#[test]
fn twelve_before_five_and_fifteen() {
    let mut flash = rooted(8192);
    flash.inode(1, A, 0, ROOT, b"a");
    inodes_up_to(&mut flash, 2, 256);
    fill(&mut flash, 1, 0);
    assert_eq!(create(&mut flash, "/a", 1), Err(12));
    assert_eq!(create(&mut flash, "/b", 1), Err(5));
}

#[test]
fn five_before_fifteen_at_create() {
    let mut flash = rooted(8192);
    inodes_up_to(&mut flash, 1, 255);
    assert_eq!(create(&mut flash, "/256th", 0), Ok(1));
    assert_eq!(create(&mut flash, "/257th", 1), Err(5));
    assert_eq!(create(&mut flash, "/257th", 0), Err(5));
    let mut full = rooted(8192);
    inodes_up_to(&mut full, 1, 255);
    fill(&mut full, 1, 10);
    assert_eq!(create(&mut full, "/256th", 1), Err(15));
    let mut both = rooted(8192);
    inodes_up_to(&mut both, 1, 256);
    fill(&mut both, 1, 10);
    assert_eq!(create(&mut both, "/257th", 1), Err(5));
}

/// One create after another, from the root alone to the last place; a deletion
/// takes no place and frees none, a collection frees it.
#[test]
fn creates_up_to_the_last_place() {
    let mut flash = rooted(8192);
    for k in 0..255 {
        let id = if k % 2 == 0 { k / 2 + 1 } else { A + k / 2 };
        assert_eq!(create(&mut flash, &format!("/{k}"), k % 2), Ok(id));
    }
    assert_eq!((report(&flash).inodes, report(&flash).live), (256, 256));
    assert_eq!(create(&mut flash, "/one more", 1), Err(5));
    assert_eq!(unlink(&mut flash, "/7"), 0);
    assert_eq!(create(&mut flash, "/one more", 1), Err(5));
    assert_eq!(collect(&mut flash), 0);
    assert_eq!(create(&mut flash, "/one more", 1), Ok(A + 3));
    assert_eq!(create(&mut flash, "/and one", 0), Err(5));
}

/// A record may fill the free space exactly.
#[test]
fn fifteen_by_one_byte() {
    for (leave, answer) in [(22, Ok(A)), (21, Err(15))] {
        let mut flash = rooted(256);
        fill(&mut flash, 1, leave);
        assert_eq!(create(&mut flash, "/ab", 1), answer);
        if answer.is_ok() {
            assert_eq!((find(&flash, "/ab"), report(&flash).stretches), (Ok(A), 0));
        }
    }
}

/// "the first clean file area, in descriptor order, with room"; a damaged area
/// waits for collection.
#[test]
fn where_a_record_goes() {
    let mut flash = Flash::of(&[256, 256, 256, 256]);
    flash.root(1);
    flash.put(1, b"torn");
    fill(&mut flash, 2, 21);
    assert_eq!(create(&mut flash, "/long", 1), Ok(A));
    assert_eq!(create(&mut flash, "/s", 1), Ok(B));
    let long = Inode::new(A, 0, ROOT, b"long").bytes();
    let short = Inode::new(B, 0, ROOT, b"s").bytes();
    assert_eq!(&area(&flash, 3)[24..48], &long[..]);
    assert_eq!(&area(&flash, 2)[235..], &short[..]);
    assert!(area(&flash, 1)[48..].iter().all(|byte| *byte == 0xff));
}

#[test]
fn no_clean_area() {
    let mut flash = rooted(4096);
    flash.inode(1, A, 0, ROOT, b"a");
    flash.put(1, b"torn");
    assert_eq!(create(&mut flash, "/b", 1), Err(15));
    assert_eq!(append(&mut flash, "/a", b"x"), 15);
    assert_eq!(append(&mut flash, "/a", b""), 0);
    assert_eq!(unlink(&mut flash, "/a"), 15);
    assert_eq!(collect(&mut flash), 0);
    assert_eq!(create(&mut flash, "/b", 1), Ok(B));
}

/// FF bytes before a record that ends the area are no room.
#[test]
fn damage_before_the_last_record_is_no_room() {
    let mut flash = Flash::of(&[256, 256]);
    flash.skip(1, 212);
    flash.root(1);
    assert_eq!((flash.room(1), report(&flash).skipped), (0, 212));
    assert_eq!(create(&mut flash, "/a", 1), Err(15));
}

/// Areas of 128: pieces of 28. The chain goes on from the file's last block.
#[test]
fn append_cuts_into_pieces() {
    let mut flash = Flash::of(&[128, 128, 128, 128]);
    flash.root(1);
    assert_eq!(create(&mut flash, "/a", 1), Ok(A));
    let data: Vec<u8> = (0..89).collect();
    assert_eq!(append(&mut flash, "/a", &data), 0);
    assert_eq!(append(&mut flash, "/a", b"more"), 0);
    assert_eq!(contents(&flash, "/a"), Ok([&data[..], b"more"].concat()));
    let place = |index: usize, offset: usize, record: Block| {
        let bytes = record.bytes();
        assert_eq!(&area(&flash, index)[offset..offset + bytes.len()], &bytes[..]);
    };
    // One piece behind root and name; two fill the next area to its last byte.
    place(1, 65, Block::new(BLOCK, 0, A, NONE, &data[..28]));
    place(2, 24, Block::new(BLOCK + 1, 0, A, BLOCK, &data[28..56]));
    place(2, 76, Block::new(BLOCK + 2, 0, A, BLOCK + 1, &data[56..84]));
    // 128 - 117 is 11 bytes in the first area: too few for the short pieces.
    place(3, 24, Block::new(BLOCK + 3, 0, A, BLOCK + 2, &data[84..]));
    place(3, 53, Block::new(BLOCK + 4, 0, A, BLOCK + 3, b"more"));
    assert_eq!(read(&flash, A, 0, 1).0.headers, 5);
}

/// The shortest file area decides, damaged or not; scratch doesn't.
#[test]
fn the_shortest_file_area_decides() {
    let mut flash = Flash::of(&[4096, 4096, 130]);
    flash.root(1);
    flash.inode(1, A, 0, ROOT, b"a");
    flash.put(2, b"torn");
    assert_eq!(append(&mut flash, "/a", &[1; 30]), 0);
    assert_eq!(read(&flash, A, 0, 1).0.headers, 2);
    assert_eq!(append(&mut flash, "/a", &[1; 29]), 0);
    assert_eq!(read(&flash, A, 0, 1).0.headers, 3);
}

/// New ids are chosen piece by piece, so they needn't be consecutive.
#[test]
fn ids_of_pieces() {
    let mut flash = Flash::of(&[128, 128, 128, 128]);
    flash.root(1);
    flash.block(1, BLOCK + 1, 0, B, BLOCK + 3, b"x");
    assert_eq!(create(&mut flash, "/a", 1), Ok(A));
    assert_eq!(append(&mut flash, "/a", &[7; 84]), 0);
    assert_eq!(contents(&flash, "/a"), Ok(vec![7; 84]));
    for (index, offset, id, previous) in
        [(2, 24, BLOCK, NONE), (2, 76, BLOCK + 2, BLOCK), (3, 24, BLOCK + 4, BLOCK + 2)]
    {
        let piece = Block::new(id, 0, A, previous, &[7; 28]).bytes();
        assert_eq!(&area(&flash, index)[offset..offset + 52], &piece[..]);
    }
}

/// "all pieces or none": one piece has room beside root and name, two in each of
/// the other areas; the sixth has none.
#[test]
fn all_pieces_or_none() {
    let mut flash = Flash::of(&[128, 128, 128, 128]);
    flash.root(1);
    assert_eq!(create(&mut flash, "/a", 1), Ok(A));
    assert_eq!(append(&mut flash, "/a", &[7; 6 * 28]), 15);
    assert_eq!(append(&mut flash, "/a", &[7; 5 * 28 + 1]), 15);
    assert_eq!(append(&mut flash, "/a", &[7; 5 * 28]), 0);
    assert_eq!(read(&flash, A, 0, 1).0.headers, 5);
}

#[test]
fn the_limit_of_8192_bytes() {
    let mut flash = rooted(16_384);
    assert_eq!(create(&mut flash, "/a", 1), Ok(A));
    let data: Vec<u8> = (0..8193u32).map(|i| (i % 251) as u8).collect();
    assert_eq!(append(&mut flash, "/a", &data), 8);
    assert_eq!(append(&mut flash, "/a", &data[..8192]), 0);
    assert_eq!(contents(&flash, "/a"), Ok(data[..8192].to_vec()));
    assert_eq!(read(&flash, A, 0, 1).0.headers, 4);
}

/// The customer's areas (document 02, T-03) and their greatest block: two records
/// of it fill an area with nothing but its header to the last byte.
const CUSTOMERS_AREA: usize = 4144;
const FULL: usize = 2036;

/// "Root and names still take room of their own": what they, a full block and
/// another block's header leave of the first file area.
const LEFT: usize = CUSTOMERS_AREA
    - AreaHeader::SIZE
    - Inode::HEADER
    - (Inode::HEADER + 1)
    - (Block::HEADER + FULL)
    - Block::HEADER;

/// The data of a block, unlike the others'.
fn block_data(number: usize, size: usize) -> Vec<u8> {
    (0..size).map(|i| (i % 251 + number) as u8).collect()
}

/// How long a block is that an append makes of longer data: the data length
/// field of the record behind root and name.
fn full_size(flash: &Flash) -> usize {
    let mut flash = flash.clone();
    assert_eq!(append(&mut flash, "/a", &[1; 2049]), 0);
    let block = &area(&flash, 1)[65..];
    usize::from(u16::from_le_bytes([block[20], block[21]]))
}

/// "A customer formatted areas of 4,144 bytes and the second full block was
/// refused with 15." Each file area takes two full blocks; the first, with root
/// and name, one and a shorter one. So with two areas, one of them scratch, the
/// second full block is still refused with 15, by root and name.
#[test]
fn two_greatest_blocks() {
    for areas in 2..=15 {
        let mut flash = formatted(&vec![CUSTOMERS_AREA; areas]);
        assert_eq!(create(&mut flash, "/a", 1), Ok(A));
        let size = full_size(&flash);
        let mut blocks = Vec::new();
        let refused = loop {
            let block = block_data(blocks.len(), size);
            match append(&mut flash, "/a", &block) {
                0 => blocks.push(block),
                number => break number,
            }
        };
        let expected = 2 * (areas - 1) - 1;
        assert_eq!((size, blocks.len(), refused), (FULL, expected, 15), "{areas} areas");
        assert_eq!(read(&flash, A, 0, 1).0.headers as usize, expected);
        full_but_the_first(&flash, &blocks);
        assert_eq!(append(&mut flash, "/a", &[9; LEFT + 1]), 15);
        assert_eq!(append(&mut flash, "/a", &[9; LEFT]), 0);
        assert_eq!(append(&mut flash, "/a", b"x"), 15);
        blocks.push(vec![9; LEFT]);
        assert_eq!(contents(&flash, "/a"), Ok(blocks.concat()));
        assert_eq!(report(&flash).stretches, 0);
    }
}

/// The file areas behind the first: header and two full blocks, which leave no byte.
fn full_but_the_first(flash: &Flash, blocks: &[Vec<u8>]) {
    for (k, two) in blocks[1..].chunks(2).enumerate() {
        let record = |i: usize| {
            let id = BLOCK + (1 + 2 * k + i) as u32;
            Block::new(id, 0, A, id - 1, &two[i]).bytes()
        };
        holds(flash, 2 + k, [0, 0, 0, 1 + k as u8], &[record(0), record(1)].concat());
    }
}

/// The same blocks by one append: all that three areas take, or none.
#[test]
fn full_blocks_of_one_append() {
    let mut flash = formatted(&[CUSTOMERS_AREA; 3]);
    assert_eq!(create(&mut flash, "/a", 1), Ok(A));
    let blocks: Vec<Vec<u8>> = (0..3).map(|k| block_data(k, FULL)).collect();
    let all = [&blocks.concat()[..], &[9; LEFT]].concat();
    assert_eq!(append(&mut flash, "/a", &[&all[..], b"x"].concat()), 15);
    assert_eq!(append(&mut flash, "/a", &all), 0);
    full_but_the_first(&flash, &blocks);
    assert_eq!(contents(&flash, "/a"), Ok(all));
    assert_eq!(read(&flash, A, 0, 1).0.headers, 4);
    assert_eq!(append(&mut flash, "/a", b"x"), 15);
}

#[test]
fn five_before_fifteen_at_append() {
    let mut flash = rooted(27_000);
    flash.inode(1, A, 0, ROOT, b"a");
    blocks_up_to(&mut flash, A, 0, 1023);
    assert_eq!(append(&mut flash, "/a", &[1; 2049]), 5);
    assert_eq!(append(&mut flash, "/a", &[1; 2048]), 15);
    assert_eq!(append(&mut flash, "/a", b"1,024th"), 0);
    assert_eq!(append(&mut flash, "/a", b"1,025th"), 5);
    assert_eq!(append(&mut flash, "/a", b""), 0);
    assert_eq!(append(&mut flash, "/a", &[1; 8192]), 5);
    assert_eq!(append(&mut flash, "/a", &[1; 8193]), 8);
}

/// Areas of 128 beside the long ones: pieces of 28. So many as there are places
/// left are written, one more is 5 and none is written.
#[test]
fn five_by_the_last_piece() {
    for left in 0..=5 {
        let mut flash = Flash::of(&[27_000, 27_000, 128]);
        flash.root(1);
        flash.inode(1, A, 0, ROOT, b"a");
        blocks_up_to(&mut flash, A, 0, 1024 - left);
        let data: Vec<u8> = (0..left as usize * 28 + 1).map(|i| i as u8).collect();
        let fits = &data[..data.len() - 1];
        assert_eq!(append(&mut flash, "/a", &data), 5, "{left} places left");
        assert_eq!(append(&mut flash, "/a", fits), 0, "{left} places left");
        assert_eq!(contents(&flash, "/a").expect("it reads")[1024 - left as usize..], *fits);
        assert_eq!(read(&flash, A, 0, 1).0.headers, 1024);
        assert_eq!((append(&mut flash, "/a", b"x"), append(&mut flash, "/a", b"")), (5, 0));
    }
}

/// The greatest append in the smallest pieces, of 28, is 293 blocks.
#[test]
fn the_most_pieces_of_an_append() {
    for (already, number) in [(1024 - 293, 0), (1024 - 292, 5), (1023, 5)] {
        let mut lengths = [4096; 16];
        lengths[15] = 128;
        let mut flash = Flash::of(&lengths);
        flash.root(1);
        flash.inode(1, A, 0, ROOT, b"a");
        blocks_up_to(&mut flash, A, 0, already);
        assert_eq!(append(&mut flash, "/a", &[1; 8192]), number, "{already} blocks");
        let headers = if number == 0 { 1024 } else { already };
        assert_eq!(read(&flash, A, 0, 1).0.headers, headers);
    }
}

/// One append after another, up to the last place; dead blocks keep theirs
/// until they are collected.
#[test]
fn appends_up_to_the_last_place() {
    let mut flash = rooted(28_000);
    flash.inode(1, A, 0, ROOT, b"a");
    flash.inode(1, B, 0, ROOT, b"b");
    blocks_up_to(&mut flash, A, 0, 960);
    for k in 960..1024u32 {
        assert_eq!(append(&mut flash, "/b", &k.to_le_bytes()), 0, "{k}");
    }
    assert_eq!(append(&mut flash, "/b", b"x"), 5);
    assert_eq!(unlink(&mut flash, "/a"), 0);
    assert_eq!(append(&mut flash, "/b", b"x"), 5);
    assert_eq!(collect(&mut flash), 0);
    assert_eq!(append(&mut flash, "/b", b"x"), 0);
    assert_eq!(read(&flash, B, 0, 1).0.headers, 65);
}

#[test]
fn thirteen_before_five_and_fifteen() {
    let mut flash = rooted(32_768);
    flash.inode(1, A, 0, ROOT, b"a");
    flash.block(1, BLOCK, 0, A, BLOCK + 3000, b"broken");
    blocks_up_to(&mut flash, B, 1, 1024);
    assert_eq!(append(&mut flash, "/a", b"x"), 13);
    assert_eq!(append(&mut flash, "/a", &[1; 8192]), 13);
}

#[test]
fn append_of_nothing() {
    let mut flash = bench();
    let before = flash.image.clone();
    assert_eq!(append(&mut flash, "/a", b""), 0);
    assert_eq!(flash.image, before);
    assert_eq!(append(&mut flash, "/no", b""), 9);
    assert_eq!(append(&mut flash, "/a/x", b""), 11);
    assert_eq!(append(&mut flash, "a", b""), 8);
}

/// "Unlink writes a deletion record, sequence plus one, no name".
#[test]
fn unlink_writes_a_deletion_record() {
    let mut flash = rooted(256);
    flash.inode(1, A, 41, ROOT, b"a");
    assert_eq!(unlink(&mut flash, "/a"), 0);
    let record = Inode::new(A, 42, NONE, b"").bytes();
    assert_eq!(&area(&flash, 1)[65..85], &record[..]);
    assert_eq!(find(&flash, "/a"), Err(9));
    assert_eq!(unlink(&mut flash, "/a"), 9);
}

/// "what lies below a directory goes with it."
#[test]
fn unlink_of_a_directory() {
    let mut flash = rooted(4096);
    assert_eq!(create(&mut flash, "/d", 0), Ok(1));
    assert_eq!(create(&mut flash, "/d/e", 0), Ok(2));
    assert_eq!(create(&mut flash, "/d/e/f", 1), Ok(A));
    assert_eq!(create(&mut flash, "/g", 1), Ok(B));
    assert_eq!(unlink(&mut flash, "/d"), 0);
    assert_eq!((report(&flash).inodes, report(&flash).live), (5, 2));
    assert_eq!(find(&flash, "/d/e/f"), Err(9));
    assert_eq!(read(&flash, A, 0, 1).0.number, 9);
    assert_eq!(find(&flash, "/g"), Ok(B));
    // The deleted directory's id isn't used again while old children name it.
    assert_eq!(create(&mut flash, "/d", 0), Ok(3));
    assert_eq!(find(&flash, "/d/e"), Err(9));
}

#[test]
fn unlink_refusals() {
    let mut flash = rooted(4096);
    flash.inode(1, A, 0, ROOT, b"f");
    flash.inode(1, 1, 0, ROOT, b"twice");
    flash.inode(1, 2, 0, ROOT, b"twice");
    assert_eq!(unlink(&mut flash, "/no"), 9);
    assert_eq!(unlink(&mut flash, "/twice"), 10);
    assert_eq!(unlink(&mut flash, "/f/x"), 11);
}

/// 16 comes before 15.
#[test]
fn sixteen_alone_and_before_fifteen() {
    let mut flash = rooted(256);
    flash.inode(1, A, LAST, ROOT, b"a");
    flash.inode(1, B, LAST - 1, ROOT, b"b");
    assert_eq!(unlink(&mut flash, "/a"), 16);
    fill(&mut flash, 1, 19);
    assert_eq!(unlink(&mut flash, "/a"), 16);
    assert_eq!(unlink(&mut flash, "/b"), 15);
}

#[test]
fn unlink_needs_twenty_bytes() {
    let mut flash = rooted(256);
    flash.inode(1, B, LAST - 1, ROOT, b"b");
    fill(&mut flash, 1, 20);
    assert_eq!(unlink(&mut flash, "/b"), 0);
    assert_eq!(find(&flash, "/b"), Err(9));
}

/// Unlink with 256 inode ids and 1,024 block ids is never 5.
#[test]
fn unlink_with_full_tables() {
    let mut flash = rooted(32_768);
    flash.inode(1, A, 0, ROOT, b"a");
    inodes_up_to(&mut flash, 2, 256);
    blocks_up_to(&mut flash, A, 0, 1024);
    assert_eq!(unlink(&mut flash, "/a"), 0);
    assert_eq!((report(&flash).inodes, report(&flash).live), (256, 255));
}
