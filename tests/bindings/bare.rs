//! The crate and the archive without `std` and without a C library, as on bare metal: a volume is made, and a file written, overwritten, renamed,
//! read back and listed. What the archive needs from outside is two functions, `memset` and `memcpy`, and they are here. Status 0 where all went well.
#![no_std]
#![no_main]

use core::arch::{asm, global_asm};
use nffs::{Area, Kind, Refusal, Volume};

global_asm!(".globl _start", "_start:", "and rsp, -16", "call run", "ud2");

static AREAS: [Area; 2] = Area::row(4096);

fn stored() -> Result<bool, Refusal> {
    let mut flash = [0; 2 * 4096];
    let mut volume = Volume::new(&mut flash[..], &AREAS);
    volume.format()?;
    volume.create(b"", b"/dose", Kind::File)?;
    volume.append(b"", b"/dose", b"20 mSv")?;
    volume.overwrite(b"", b"/dose", 0, b"15")?;
    volume.rename(b"", b"/dose", b"/limit")?;
    let mut file = volume.open(b"", b"/limit")?;
    let mut buffer = [0; 64];
    let given = volume.read(&mut file, &mut buffer)?;
    let read = buffer[..given.bytes].iter().eq(b"15 mSv");
    let length = volume.tree(&mut buffer)?;
    Ok(read && buffer[..length].iter().eq(b"/\n limit 6\n"))
}

#[no_mangle]
extern "C" fn run() -> ! {
    exit(if stored() == Ok(true) { 0 } else { 1 })
}

fn exit(status: i32) -> ! {
    // SAFETY: the system call `exit_group`, which does not return.
    unsafe { asm!("syscall", in("rax") 231, in("rdi") status, options(noreturn)) }
}

/// # Safety
///
/// As C's `memset`.
#[no_mangle]
pub unsafe extern "C" fn memset(to: *mut u8, byte: i32, n: usize) -> *mut u8 {
    // in assembly, since a loop would be compiled into a call of memset
    asm!("rep stosb", inout("rcx") n => _, inout("rdi") to => _, in("al") byte as u8, options(nostack));
    to
}

/// # Safety
///
/// As C's `memcpy`.
#[no_mangle]
pub unsafe extern "C" fn memcpy(to: *mut u8, from: *const u8, n: usize) -> *mut u8 {
    asm!("rep movsb", inout("rcx") n => _, inout("rdi") to => _, inout("rsi") from => _, options(nostack));
    to
}

/// The host's `core` names it; nothing unwinds.
#[no_mangle]
extern "C" fn rust_eh_personality() {}

#[panic_handler]
fn panicked(_: &core::panic::PanicInfo) -> ! {
    exit(2)
}
