//! The same calls with the answers as the archive gives them, of refused calls too: `number` is 0
//! or why the call was refused, and in a refused answer every other number is 0. They are safe as
//! well; the functions of the crate itself put their answers into a `Result`.
// The archive takes a slice as two arguments, pointer and number of elements, also where the
// registers run out between the two.
//
// What the calls need is what a borrow gives: pointers that are not null and are aligned (those of
// empty slices too), elements that are there, and nothing else that reads or writes what is lent
// by `&mut`. That they stay inside the slices is proved.

// what the functions and fields mean is said in the crate's root, and in include/nffs.h
#![allow(missing_docs)]

use crate::{Area, Handle};

#[cfg(not(all(target_arch = "x86_64", target_pointer_width = "64", not(windows))))]
compile_error!("libnffs.a is for x86-64 with the System V calling convention");

#[repr(C)]
#[derive(Clone, Copy, Debug, PartialEq, Eq)]
pub struct ReportAnswer {
    pub number: u32,
    pub inodes: u32,
    pub live: u32,
    pub stretches: u32,
    pub skipped: u32,
    pub first_offset: u32,
    pub first_length: u32,
}

#[repr(C)]
#[derive(Clone, Copy, Debug, PartialEq, Eq)]
pub struct AreaAnswer {
    pub number: u32,
    pub kind: u32,
    pub id: u32,
    pub count: u32,
    pub records: u32,
    pub stretches: u32,
    pub skipped: u32,
    pub free: u32,
    pub offset: u32,
    pub length: u32,
}

#[repr(C)]
#[derive(Clone, Copy, Debug, PartialEq, Eq)]
pub struct LookupAnswer {
    pub number: u32,
    pub id: u32,
    pub kind: u32,
}

#[repr(C)]
#[derive(Clone, Copy, Debug, PartialEq, Eq)]
pub struct OpenAnswer {
    pub number: u32,
    pub id: u32,
    pub position: u32,
}

#[repr(C)]
#[derive(Clone, Copy, Debug, PartialEq, Eq)]
pub struct ReadAnswer {
    pub number: u32,
    pub given: u32,
    pub headers: u32,
}

#[repr(C)]
#[derive(Clone, Copy, Debug, PartialEq, Eq)]
pub struct TreeAnswer {
    pub number: u32,
    pub length: u32,
}

#[repr(C)]
#[derive(Clone, Copy, Debug, PartialEq, Eq)]
pub struct CreateAnswer {
    pub number: u32,
    pub id: u32,
}

mod exports {
    use super::*;

    extern "C" {
        pub fn nffs_format(
            image: *mut u8,
            size: usize,
            areas: *const Area,
            areas_count: usize,
        ) -> u32;
        pub fn nffs_report(
            image: *const u8,
            size: usize,
            areas: *const Area,
            areas_count: usize,
        ) -> ReportAnswer;
        pub fn nffs_area_report(
            image: *const u8,
            size: usize,
            areas: *const Area,
            areas_count: usize,
            index: u32,
            stretch: u32,
        ) -> AreaAnswer;
        pub fn nffs_tree(
            image: *const u8,
            size: usize,
            areas: *const Area,
            areas_count: usize,
            text: *mut u8,
            text_length: usize,
        ) -> TreeAnswer;
        pub fn nffs_lookup(
            image: *const u8,
            size: usize,
            areas: *const Area,
            areas_count: usize,
            base: *const u8,
            base_length: usize,
            path: *const u8,
            path_length: usize,
        ) -> LookupAnswer;
        pub fn nffs_open(
            image: *const u8,
            size: usize,
            areas: *const Area,
            areas_count: usize,
            base: *const u8,
            base_length: usize,
            path: *const u8,
            path_length: usize,
        ) -> OpenAnswer;
        pub fn nffs_read(
            image: *const u8,
            size: usize,
            areas: *const Area,
            areas_count: usize,
            handle: *mut Handle,
            buffer: *mut u8,
            buffer_length: usize,
        ) -> ReadAnswer;
        pub fn nffs_read_at(
            image: *const u8,
            size: usize,
            areas: *const Area,
            areas_count: usize,
            id: u32,
            position: u32,
            buffer: *mut u8,
            buffer_length: usize,
        ) -> ReadAnswer;
        pub fn nffs_create(
            image: *mut u8,
            size: usize,
            areas: *const Area,
            areas_count: usize,
            base: *const u8,
            base_length: usize,
            path: *const u8,
            path_length: usize,
            kind: u32,
        ) -> CreateAnswer;
        pub fn nffs_append(
            image: *mut u8,
            size: usize,
            areas: *const Area,
            areas_count: usize,
            base: *const u8,
            base_length: usize,
            path: *const u8,
            path_length: usize,
            data: *const u8,
            data_length: usize,
        ) -> u32;
        pub fn nffs_overwrite(
            image: *mut u8,
            size: usize,
            areas: *const Area,
            areas_count: usize,
            base: *const u8,
            base_length: usize,
            path: *const u8,
            path_length: usize,
            offset: u32,
            data: *const u8,
            data_length: usize,
        ) -> u32;
        pub fn nffs_unlink(
            image: *mut u8,
            size: usize,
            areas: *const Area,
            areas_count: usize,
            base: *const u8,
            base_length: usize,
            path: *const u8,
            path_length: usize,
        ) -> u32;
        pub fn nffs_rename(
            image: *mut u8,
            size: usize,
            areas: *const Area,
            areas_count: usize,
            base: *const u8,
            base_length: usize,
            old_path: *const u8,
            old_length: usize,
            new_path: *const u8,
            new_length: usize,
        ) -> u32;
        pub fn nffs_collect(
            image: *mut u8,
            size: usize,
            areas: *const Area,
            areas_count: usize,
        ) -> u32;
    }
}

const _: () = assert!(size_of::<Area>() == 8);
const _: () = assert!(size_of::<Handle>() == 8);
const _: () = assert!(size_of::<ReportAnswer>() == 28);
const _: () = assert!(size_of::<AreaAnswer>() == 40);
const _: () = assert!(size_of::<LookupAnswer>() == 12);
const _: () = assert!(size_of::<OpenAnswer>() == 12);
const _: () = assert!(size_of::<ReadAnswer>() == 12);
const _: () = assert!(size_of::<TreeAnswer>() == 8);
const _: () = assert!(size_of::<CreateAnswer>() == 8);

pub fn format(image: &mut [u8], areas: &[Area]) -> u32 {
    // SAFETY: slices as the call needs them, see above.
    unsafe { exports::nffs_format(image.as_mut_ptr(), image.len(), areas.as_ptr(), areas.len()) }
}

pub fn report(image: &[u8], areas: &[Area]) -> ReportAnswer {
    // SAFETY: slices as the call needs them, see above.
    unsafe { exports::nffs_report(image.as_ptr(), image.len(), areas.as_ptr(), areas.len()) }
}

pub fn area_report(image: &[u8], areas: &[Area], index: u32, stretch: u32) -> AreaAnswer {
    // SAFETY: slices as the call needs them, see above.
    unsafe {
        exports::nffs_area_report(
            image.as_ptr(),
            image.len(),
            areas.as_ptr(),
            areas.len(),
            index,
            stretch,
        )
    }
}

pub fn tree(image: &[u8], areas: &[Area], text: &mut [u8]) -> TreeAnswer {
    // SAFETY: slices as the call needs them, see above.
    unsafe {
        exports::nffs_tree(
            image.as_ptr(),
            image.len(),
            areas.as_ptr(),
            areas.len(),
            text.as_mut_ptr(),
            text.len(),
        )
    }
}

pub fn lookup(image: &[u8], areas: &[Area], base: &[u8], path: &[u8]) -> LookupAnswer {
    // SAFETY: slices as the call needs them, see above.
    unsafe {
        exports::nffs_lookup(
            image.as_ptr(),
            image.len(),
            areas.as_ptr(),
            areas.len(),
            base.as_ptr(),
            base.len(),
            path.as_ptr(),
            path.len(),
        )
    }
}

pub fn open(image: &[u8], areas: &[Area], base: &[u8], path: &[u8]) -> OpenAnswer {
    // SAFETY: slices as the call needs them, see above.
    unsafe {
        exports::nffs_open(
            image.as_ptr(),
            image.len(),
            areas.as_ptr(),
            areas.len(),
            base.as_ptr(),
            base.len(),
            path.as_ptr(),
            path.len(),
        )
    }
}

pub fn read(image: &[u8], areas: &[Area], handle: &mut Handle, buffer: &mut [u8]) -> ReadAnswer {
    // SAFETY: slices as the call needs them, see above.
    unsafe {
        exports::nffs_read(
            image.as_ptr(),
            image.len(),
            areas.as_ptr(),
            areas.len(),
            handle,
            buffer.as_mut_ptr(),
            buffer.len(),
        )
    }
}

pub fn read_at(
    image: &[u8],
    areas: &[Area],
    id: u32,
    position: u32,
    buffer: &mut [u8],
) -> ReadAnswer {
    // SAFETY: slices as the call needs them, see above.
    unsafe {
        exports::nffs_read_at(
            image.as_ptr(),
            image.len(),
            areas.as_ptr(),
            areas.len(),
            id,
            position,
            buffer.as_mut_ptr(),
            buffer.len(),
        )
    }
}

pub fn create(
    image: &mut [u8],
    areas: &[Area],
    base: &[u8],
    path: &[u8],
    kind: u32,
) -> CreateAnswer {
    // SAFETY: slices as the call needs them, see above.
    unsafe {
        exports::nffs_create(
            image.as_mut_ptr(),
            image.len(),
            areas.as_ptr(),
            areas.len(),
            base.as_ptr(),
            base.len(),
            path.as_ptr(),
            path.len(),
            kind,
        )
    }
}

pub fn append(image: &mut [u8], areas: &[Area], base: &[u8], path: &[u8], data: &[u8]) -> u32 {
    // SAFETY: slices as the call needs them, see above.
    unsafe {
        exports::nffs_append(
            image.as_mut_ptr(),
            image.len(),
            areas.as_ptr(),
            areas.len(),
            base.as_ptr(),
            base.len(),
            path.as_ptr(),
            path.len(),
            data.as_ptr(),
            data.len(),
        )
    }
}

pub fn overwrite(
    image: &mut [u8],
    areas: &[Area],
    base: &[u8],
    path: &[u8],
    offset: u32,
    data: &[u8],
) -> u32 {
    // SAFETY: slices as the call needs them, see above.
    unsafe {
        exports::nffs_overwrite(
            image.as_mut_ptr(),
            image.len(),
            areas.as_ptr(),
            areas.len(),
            base.as_ptr(),
            base.len(),
            path.as_ptr(),
            path.len(),
            offset,
            data.as_ptr(),
            data.len(),
        )
    }
}

pub fn unlink(image: &mut [u8], areas: &[Area], base: &[u8], path: &[u8]) -> u32 {
    // SAFETY: slices as the call needs them, see above.
    unsafe {
        exports::nffs_unlink(
            image.as_mut_ptr(),
            image.len(),
            areas.as_ptr(),
            areas.len(),
            base.as_ptr(),
            base.len(),
            path.as_ptr(),
            path.len(),
        )
    }
}

pub fn rename(
    image: &mut [u8],
    areas: &[Area],
    base: &[u8],
    old_path: &[u8],
    new_path: &[u8],
) -> u32 {
    // SAFETY: slices as the call needs them, see above.
    unsafe {
        exports::nffs_rename(
            image.as_mut_ptr(),
            image.len(),
            areas.as_ptr(),
            areas.len(),
            base.as_ptr(),
            base.len(),
            old_path.as_ptr(),
            old_path.len(),
            new_path.as_ptr(),
            new_path.len(),
        )
    }
}

pub fn collect(image: &mut [u8], areas: &[Area]) -> u32 {
    // SAFETY: slices as the call needs them, see above.
    unsafe { exports::nffs_collect(image.as_mut_ptr(), image.len(), areas.as_ptr(), areas.len()) }
}
