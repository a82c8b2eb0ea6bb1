//! T-11, run: which damage to a record is surely caught, on the calls as users link them. Up to 256 altered copies of a record lie side by side in an
//! area. If a report counts every byte of them as skipped, no record was read at the place of any.

use std::ops::Range;

use nffs::raw::{self, ReportAnswer};
use nffs::Area;
use nffs_model::forge::{with_reserved, Flash};
use nffs_model::layout::{Block, Inode, Record, NONE, ROOT};

/// The most bits that a burst spans.
const SPAN: usize = 16;

const FILE: u32 = 0x1000_0000;
const BLOCK: u32 = 0x8000_0000;

/// A volume with some bytes between the root and a file, which sees to it that none of them is free space.
struct Volume {
    image: Vec<u8>,
    areas: [Area; 2],
    bytes: Range<usize>,
    file: u32,
}

impl Volume {
    /// `file` is the file's id.
    fn with(bytes: &[u8], file: u32) -> Volume {
        let (root, last) = (root(), Inode::new(file, 0, ROOT, b"f").bytes());
        let length = (24 + root.len() + bytes.len() + last.len()).max(128);
        let mut flash = Flash::of(&[length, length]);
        let start = flash.offset(1) + 24 + root.len();
        assert!([&root, bytes, &last].into_iter().all(|part| flash.put(1, part)));
        Volume { image: flash.image, areas: Area::row(length as u32), bytes: start..start + bytes.len(), file }
    }

    /// A report, which must find no other inodes than the root and the file: its stretches and the bytes that were skipped.
    #[track_caller]
    fn damage(&self) -> (u32, usize) {
        let ReportAnswer { number, inodes, live, stretches, skipped, first_offset, first_length } = raw::report(&self.image, &self.areas);
        assert_eq!((number, inodes, live), (0, 2, 2));
        assert!(stretches == 0 && (first_offset, first_length) == (0, 0) || self.bytes.contains(&(first_offset as usize)));
        assert!(stretches > 1 || first_length == skipped);
        (stretches, skipped as usize)
    }

    /// Whether no record is read in the bytes, by a report: root and file are all, and the bytes are one stretch, which is the first (T-08).
    fn skips_them(&self) -> bool {
        let (skipped, first_offset) = (self.bytes.len() as u32, self.bytes.start as u32);
        let first_length = skipped;
        raw::report(&self.image, &self.areas)
            == ReportAnswer { number: 0, inodes: 2, live: 2, stretches: 1, skipped, first_offset, first_length }
    }

    /// What the file holds.
    fn contents(&self) -> Vec<u8> {
        let mut buffer = [0; 64];
        let read = raw::read_at(&self.image, &self.areas, self.file, 0, &mut buffer);
        assert_eq!(read.number, 0);
        buffer[..read.given as usize].to_vec()
    }
}

/// An id of a file of which the record is no version.
fn another(record: &[u8]) -> u32 {
    match Record::acceptable(record) {
        Some(Record::Inode(inode)) if inode.id == FILE => FILE + 1,
        _ => FILE,
    }
}

/// Whether a record is read in the altered bytes of one, alone between root and file. The model is asked for their start and must say the same.
fn is_read(record: &[u8], altered: &[u8]) -> bool {
    let volume = Volume::with(altered, another(record));
    let read = !volume.skips_them();
    let model = Record::acceptable(&volume.image[volume.bytes.start..]).is_some();
    assert_eq!(read, model, "read, and what the model says: {altered:02x?}");
    read
}

/// Copies of a record, each to be altered once; when all are, they are read and made anew.
struct Copies {
    record: Vec<u8>,
    volume: Volume,
    altered: usize,
    tried: u64,
    read: Vec<Vec<u8>>,
}

impl Copies {
    #[track_caller]
    fn of(record: &[u8]) -> Copies {
        // many, since a report takes some time for its tables too, but few enough for the processor's first cache
        let most = (0x4000 / record.len()).min(256);
        let volume = Volume::with(&record.repeat(most), another(record));
        let report = raw::report(&volume.image, &volume.areas);
        assert_eq!((report.number, report.stretches, report.skipped), (0, 0, 0), "it is a record itself: {record:02x?}");
        Copies { record: record.to_vec(), volume, altered: 0, tried: 0, read: Vec::new() }
    }

    /// Alters the next copy.
    #[inline(always)]
    fn alter(&mut self, alter: impl FnOnce(&mut [u8])) {
        let size = self.record.len();
        let at = self.volume.bytes.start + self.altered * size;
        alter(&mut self.volume.image[at..at + size]);
        self.altered += 1;
        self.tried += 1;
        if at + size == self.volume.bytes.end {
            self.ask();
        }
    }

    /// Has the altered copies read, keeps those in which a record is read, and makes all anew.
    fn ask(&mut self) {
        let size = self.record.len();
        let bytes = self.volume.bytes.clone();
        // those that are not altered: no record starts in 00
        self.volume.image[bytes.clone()][self.altered * size..].fill(0);
        if !self.volume.skips_them() {
            let copies = self.volume.image[bytes.clone()].chunks_exact(size).take(self.altered);
            let read: Vec<_> = copies.filter(|copy| is_read(&self.record, copy)).map(<[u8]>::to_vec).collect();
            assert!(!read.is_empty(), "a record is read among copies of {:02x?}, in none of which one is read alone", self.record);
            self.read.extend(read);
        }
        for copy in self.volume.image[bytes].chunks_exact_mut(size) {
            copy.copy_from_slice(&self.record);
        }
        self.altered = 0;
    }

    /// How many alterations there were, and the copies in which a record was read.
    fn done(mut self) -> (u64, Vec<Vec<u8>>) {
        self.ask();
        (self.tried, self.read)
    }

    /// How many alterations there were; in none a record may be read.
    #[track_caller]
    fn all_caught(self) -> u64 {
        let record = self.record.clone();
        let (tried, read) = self.done();
        assert!(read.is_empty(), "{} altered copies of {record:02x?} are read, first {:02x?}", read.len(), read[0]);
        tried
    }

    /// Every burst of up to `span` bits in some bits.
    fn bursts(&mut self, bits: Range<usize>, span: usize) {
        each_burst(bits, span, |first, burst| self.alter(|copy| flip(copy, first, burst)));
    }
}

/// The bits of some bytes: bytes in order, each from its highest bit on.
fn bits(bytes: Range<usize>) -> Range<usize> {
    8 * bytes.start..8 * bytes.end
}

/// Every burst of up to `span` bits in some bits, as `flip` takes it.
#[inline(always)]
fn each_burst(bits: Range<usize>, span: usize, mut each: impl FnMut(usize, u32)) {
    for first in bits.clone() {
        let width = span.min(bits.end - first);
        for others in 0..1 << (width - 1) {
            each(first, 1 << 31 | others << (32 - width));
        }
    }
}

/// Alters the bits that are set in `burst`, whose highest stands for the bit `first`.
#[inline(always)]
fn flip(record: &mut [u8], first: usize, burst: u32) {
    for (byte, altered) in record[first / 8..].iter_mut().zip((burst >> (first % 8)).to_be_bytes()) {
        *byte ^= altered;
    }
}

/// How many bursts of up to `span` bits there are in some bits: the first altered bit, and any of the others in the span behind it.
fn number(bits: Range<usize>, span: usize) -> u64 {
    let whole = bits.len().saturating_sub(span) as u64;
    (whole << (span - 1)) + (1 << bits.len().min(span)) - 1
}

/// In how many bits two records differ.
fn distance(one: &[u8], other: &[u8]) -> u32 {
    assert_eq!(one.len(), other.len());
    one.iter().zip(other).map(|(a, b)| (a ^ b).count_ones()).sum()
}

/// How many bits there are from the first in which two records differ to the last.
fn span(one: &[u8], other: &[u8]) -> usize {
    let differ = |bit: &usize| (one[bit / 8] ^ other[bit / 8]) >> (7 - bit % 8) & 1 == 1;
    let mut differing = bits(0..one.len()).filter(differ);
    let first = differing.next().expect("they differ");
    differing.last().unwrap_or(first) + 1 - first
}

/// The covered header's bytes before the length field, with which it ends, and those of the check field.
fn header(record: &[u8]) -> [Range<usize>; 2] {
    match Record::acceptable(record).expect("a record") {
        Record::Inode(_) => [0..17, 18..20],
        Record::Block(_) => [0..20, 22..24],
    }
}

/// Every burst in each of some parts of a record is caught.
fn caught_in(record: &[u8], parts: &[Range<usize>]) {
    let mut copies = Copies::of(record);
    for part in parts {
        copies.bursts(bits(part.clone()), SPAN);
    }
    let tried = copies.all_caught();
    assert_eq!(tried, parts.iter().map(|part| number(bits(part.clone()), SPAN)).sum());
    let kind = if record[0] == root()[0] { "an inode" } else { "a block" };
    println!("{tried} bursts of {kind} of {} bytes, in {parts:?}", record.len());
}

/// Every burst of each of some records.
fn all_caught(records: &[Vec<u8>]) {
    for record in records {
        let [covered, check] = header(record);
        let body = check.end..record.len();
        caught_in(record, &[covered, check, body]);
    }
}

/// So many bytes, none of them NUL or '/'.
fn text(length: usize) -> Vec<u8> {
    (0..length).map(|k| b'A' + (7 * k % 57) as u8).collect()
}

fn root() -> Vec<u8> {
    Inode::new(ROOT, 0, NONE, b"").bytes()
}

fn deletion() -> Vec<u8> {
    Inode::new(FILE + 2, 4, NONE, b"").bytes()
}

/// An inode with a name of so many bytes.
fn inode(name: usize) -> Vec<u8> {
    Inode::new(FILE + 2, 3, ROOT, &text(name)).bytes()
}

/// A block with data of so many bytes.
fn block(data: usize) -> Vec<u8> {
    Block::new(BLOCK + 5, 1, FILE, BLOCK + 4, &text(data)).bytes()
}

#[test]
fn every_burst_of_inodes() {
    all_caught(&[root(), deletion(), inode(1), inode(2), inode(13)]);
}

#[test]
fn every_burst_of_blocks() {
    all_caught(&[block(1), block(2), block(3), block(24), block(100)]);
}

/// Of the longest records a part, since a report of them takes longer: of the inode the header and four bytes at each end of the name, of the block
/// the check field and two bytes at each end of the data.
#[test]
fn bursts_of_the_longest() {
    caught_in(&inode(255), &[0..17, 18..20, 20..24, 271..275]);
    caught_in(&block(2048), &[22..24, 24..26, 2070..2072]);
}

/// And all of them.
#[test]
#[ignore = "takes half an hour"]
fn every_burst_of_the_longest() {
    all_caught(&[inode(255), block(2048)]);
}

/// One by one: every burst of the check field of a record that stands alone between root and file, and of a root alone, without which a report
/// answers 7.
#[test]
fn alone_in_a_volume() {
    let mut tried = 0;
    for record in [deletion(), inode(1), block(1)] {
        let [_, check] = header(&record);
        assert!(is_read(&record, &record));
        each_burst(bits(check), SPAN, |first, burst| {
            let mut altered = record.clone();
            flip(&mut altered, first, burst);
            assert!(!is_read(&record, &altered), "{altered:02x?}");
            tried += 1;
        });
    }
    let areas = Area::row::<2>(128);
    let mut formatted = [0; 256];
    assert_eq!(raw::format(&mut formatted, &areas), 0);
    let at = formatted.windows(20).position(|bytes| bytes == root()).expect("the root");
    each_burst(bits(18..20), SPAN, |first, burst| {
        let mut image = formatted;
        flip(&mut image[at..at + 20], first, burst);
        let refused = ReportAnswer { number: 7, inodes: 0, live: 0, stretches: 0, skipped: 0, first_offset: 0, first_length: 0 };
        assert_eq!(raw::report(&image, &areas), refused, "{image:02x?}");
        tried += 1;
    });
    println!("{tried} bursts of check fields one by one");
    assert_eq!(tried, 4 * 0xffff);
}

/// Bursts on both sides of the check field's front, the length field between them as it was, are caught too, in inodes with names of every length: they
/// alter the reserved byte, and with T-14 that alone suffices. In a block they would have 18 bits at least.
#[test]
fn across_the_check_fields_front() {
    let mut tried = 0;
    for record in [deletion()].into_iter().chain((1..=255).map(inode)) {
        let mut copies = Copies::of(&record);
        for first in bits(16..17) {
            // behind the first altered bit: the other bits of the reserved byte, the length field, bits of the check field
            let (reserved, check) = (7 - first % 8, first % 8);
            for others in 0..1 << reserved {
                for behind in 1..1 << check {
                    copies.alter(|copy| {
                        flip(copy, first, 1 << 31 | others << (31 - reserved) | behind << (32 - SPAN));
                        assert!(copy[16] != record[16] && copy[17] == record[17] && copy[18..20] != record[18..20]);
                    });
                }
            }
        }
        tried += copies.all_caught();
    }
    println!("{tried} bursts across the front of the check field");
    // for each number of bits in the check field: any in the reserved byte behind the first, one at least in the check field
    assert_eq!(tried, 256 * (0..8).map(|check| (1 << (7 - check)) * ((1 << check) - 1)).sum::<u64>());
}

/// With T-14 an altered reserved byte is enough, whatever becomes of the check: it and the check field altered in every way, and none is read. Of a
/// byte of a block's body each other value has a check with which it is (`every_check_field_and_byte`).
#[test]
fn every_reserved_byte_and_check_field() {
    let mut tried = 0;
    for record in [deletion(), inode(13)] {
        let mut copies = Copies::of(&record);
        for altered in 1..1u32 << 24 {
            let [_, reserved, low, high] = altered.to_be_bytes();
            copies.alter(|copy| {
                copy[16] ^= reserved;
                copy[18] ^= low;
                copy[19] ^= high;
            });
        }
        tried += copies.all_caught();
    }
    println!("{tried} alterations of reserved byte and check field");
    assert_eq!(tried, 2 * 0xff_ffff);
}

/// Every other reserved byte with the check right for it, in inodes with names of every length; of some also alone in a volume, and on the model.
#[test]
fn every_reserved_byte_with_its_check() {
    let mut tried = 0;
    for record in [deletion()].into_iter().chain((1..=255).map(inode)) {
        let mut copies = Copies::of(&record);
        for reserved in 1..=255 {
            let altered = with_reserved(&record, reserved);
            copies.alter(|copy| copy.copy_from_slice(&altered));
        }
        tried += copies.all_caught();
    }
    for record in [deletion(), inode(1), inode(255)] {
        assert!((1..=255).all(|reserved| !is_read(&record, &with_reserved(&record, reserved))));
    }
    println!("{tried} reserved bytes with a right check");
    assert_eq!(tried, 256 * 255);
}

/// Every burst that alters the reserved byte is caught, also where it goes on in the length field.
#[test]
fn bursts_of_the_reserved_byte() {
    let mut tried = 0;
    for record in [root(), deletion(), inode(1), inode(13), inode(255)] {
        let mut copies = Copies::of(&record);
        each_burst(bits(15..19), SPAN, |first, burst| {
            let mut altered = record.clone();
            flip(&mut altered, first, burst);
            if altered[16] != record[16] {
                copies.alter(|copy| copy.copy_from_slice(&altered));
            }
        });
        tried += copies.all_caught();
    }
    println!("{tried} bursts that alter the reserved byte");
    // but for those of one side alone, and of both sides and not of it: any bits of the one byte behind the first, one at least of the other
    let others = number(bits(15..16), SPAN) + number(bits(17..19), SPAN) + (0..8).map(|k| (1 << (7 - k)) * ((1 << k) - 1)).sum::<u64>();
    assert_eq!(tried, 5 * (number(bits(15..19), SPAN) - others));
}

/// One, two and three altered bits anywhere but in the length field, on the model too.
#[test]
fn one_to_three_bits() {
    for record in [inode(1), block(1)] {
        let [covered, check] = header(&record);
        let places: Vec<_> = bits(covered).chain(bits(check.start..record.len())).collect();
        let mut copies = Copies::of(&record);
        let mut alter = |altered: &[usize]| {
            copies.alter(|copy| {
                altered.iter().for_each(|bit| flip(copy, *bit, 1 << 31));
                assert!(Record::acceptable(copy).is_none(), "the model reads {copy:02x?}");
            });
        };
        for (i, first) in places.iter().enumerate() {
            alter(&[*first]);
            for (j, second) in places.iter().enumerate().skip(i + 1) {
                alter(&[*first, *second]);
                places[j + 1..].iter().for_each(|third| alter(&[*first, *second, *third]));
            }
        }
        let (tried, n) = (copies.all_caught(), places.len() as u64);
        println!("{tried} alterations of one to three of {n} bits");
        assert_eq!(tried, n + n * (n - 1) / 2 + n * (n - 1) * (n - 2) / 6);
    }
}

/// Check field and body of a block of one byte altered in every way: with each other byte it is read with one check, and then an even number of bits,
/// four at least, are altered.
#[test]
fn every_check_field_and_byte() {
    let record = block(1);
    let mut copies = Copies::of(&record);
    for altered in 1..1 << 24 {
        copies.alter(|copy| flip(copy, 8 * 22, altered << 8));
    }
    let (tried, read) = copies.done();
    println!("{tried} alterations of check field and a byte, {} read", read.len());
    assert_eq!((tried, read.len()), (0xff_ffff, 0xff));
    assert!(read.iter().all(|copy| distance(copy, &record) >= 4 && distance(copy, &record) % 2 == 0));
}

/// The block that the cases below alter.
fn of_data(data: &[u8]) -> Vec<u8> {
    Block::new(BLOCK, 0, FILE, NONE, data).bytes()
}

/// 17 bits are not always caught: wherever in the body they start, one burst is read, and has four altered bits.
#[test]
fn seventeen_bits_are_too_many() {
    let record = of_data(b"AAA");
    let altered = [&record[..24], &[0x63, 0x45, 0x61]].concat();
    assert_eq!((span(&record, &altered), distance(&record, &altered)), (17, 4));
    let volume = Volume::with(&altered, FILE);
    assert_eq!(volume.damage(), (0, 0));
    assert_eq!(volume.contents(), [0x63, 0x45, 0x61]);

    let mut copies = Copies::of(&record);
    copies.bursts(bits(24..27), 17);
    let (tried, read) = copies.done();
    println!("{tried} bursts of up to 17 bits in three bytes, {} read", read.len());
    assert_eq!((tried, read.len()), (number(bits(24..27), 17), 24 - 17 + 1));
    assert!(read.iter().all(|copy| (span(copy, &record), distance(copy, &record)) == (17, 4)));
    assert!(read.contains(&altered));
}

/// 16 bits on both sides of the check field's end are not always caught.
#[test]
fn across_the_check_fields_end() {
    let record = of_data(b"AA");
    assert_eq!(record[22..], [0xa1, 0xb6, 0x41, 0x41]);
    let altered = [&record[..22], &[0xac, 0xa8, 0xf1, 0x41]].concat();
    assert_eq!(span(&record, &altered), 16);
    let volume = Volume::with(&altered, FILE);
    assert_eq!(volume.damage(), (0, 0));
    assert_eq!(volume.contents(), [0xf1, 0x41]);

    let mut copies = Copies::of(&record);
    copies.bursts(bits(22..26), SPAN);
    let (tried, read) = copies.done();
    println!("{tried} bursts of check field and two bytes as one part, {} read", read.len());
    assert_eq!((tried, read.len()), (number(bits(22..26), SPAN), 8));
    assert!(read.iter().all(|copy| copy[22..24] != record[22..24] && copy[24..] != record[24..]));
    assert!(read.contains(&altered));
}

/// A single bit of the length field is not always caught.
#[test]
fn a_bit_of_the_length_field() {
    let record = of_data(&[0x41, 0xaf, 0xf8]);
    let mut altered = record.clone();
    altered[20] = 1;
    assert_eq!(distance(&record, &altered), 1);
    let volume = Volume::with(&altered, FILE);
    // a record of 25 bytes, and two that are left over
    assert_eq!(volume.damage(), (1, 2));
    assert_eq!(volume.contents(), [0x41]);

    let mut read = Vec::new();
    for length in (0..=u16::MAX).filter(|length| *length != 3) {
        altered[20..22].copy_from_slice(&length.to_le_bytes());
        if is_read(&record, &altered) {
            read.push(length);
        }
    }
    println!("every other length, of which {read:?} read");
    assert_eq!(read, [1]);
}

/// An odd number of altered bits is not always caught if the record becomes one of the other kind.
#[test]
fn an_inode_turned_into_a_block() {
    let record = Inode::new(FILE, 0, ROOT, b"abcdefghij").bytes();
    let mut altered = Block::new(BLOCK, 0, FILE, BLOCK + 0xa00, b"AAAAA").bytes();
    altered.push(1);
    assert_eq!(altered[17], record[17], "the inode's length field");
    assert_eq!(distance(&record, &altered) % 2, 1);
    assert!(is_read(&record, &altered));
    // a record of 29 bytes, and one that is left over
    assert_eq!(Volume::with(&altered, FILE).damage(), (1, 1));
}

/// A record that is caught may hold another: the data of a file's only block are a newer version of a block of another file, which has other contents
/// once a single bit of the first is altered.
#[test]
fn a_record_in_the_data() {
    let newer = Block::new(BLOCK, 1, FILE, NONE, b"9 ml").bytes();
    let holder = Block::new(BLOCK + 1, 0, FILE + 1, NONE, &newer).bytes();
    let records = [Inode::new(FILE + 1, 0, ROOT, b"copy").bytes(), Block::new(BLOCK, 0, FILE, NONE, b"1 ml").bytes(), holder.clone()];
    let mut volume = Volume::with(&records.concat(), FILE);
    let answer = |stretches, skipped, first_offset| {
        let first_length = skipped;
        ReportAnswer { number: 0, inodes: 3, live: 3, stretches, skipped, first_offset, first_length }
    };
    assert_eq!(raw::report(&volume.image, &volume.areas), answer(0, 0, 0));
    assert_eq!(volume.contents(), b"1 ml");

    let at = volume.bytes.end - holder.len();
    flip(&mut volume.image[at..], 8 * 22, 1 << 31);
    // the header of the block is skipped, and its data are read as a record
    assert_eq!(raw::report(&volume.image, &volume.areas), answer(1, 24, at as u32));
    assert_eq!(volume.contents(), b"9 ml");
}
