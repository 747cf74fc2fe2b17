//! The calls for C that are timed (`include/sandbarstove.h`).

use std::ffi::c_void;
use std::ptr::null_mut;

/// What a call returns where an input is refused.
pub const REFUSED: u64 = u64::MAX;

#[repr(C)]
struct Node {
    inside: *mut c_void,
    live: u32,
    unused: u32,
}

#[repr(C)]
struct Bank {
    base: u32,
    size: u32,
    room: u32,
}

#[repr(C)]
struct Map {
    cells: u16,
    peak: u16,
}

#[repr(C)]
#[derive(Default)]
struct Why {
    code: u16,
    slot: u16,
}

#[repr(C)]
#[derive(Default)]
struct Served {
    verdict: u64,
    generation: u32,
    reply_length: u32,
    address: u32,
    length: u32,
    room: u32,
    kind: u8,
    status: u8,
    command: u8,
    place: u8,
    extended: u8,
}

unsafe extern "C" {
    fn sandbar_verify(maps: *const Map, map_count: usize, image: *const u8, image_length: usize, why: *mut Why) -> u32;
    fn sandbar_open(
        node: *mut Node,
        address: u8,
        ports: u8,
        banks: *const Bank,
        bank_count: usize,
        maps: *const Map,
        map_count: usize,
        image: *const u8,
        image_length: usize,
        why: *mut Why,
    ) -> u32;
    fn sandbar_serve(
        node: *mut Node,
        port: u8,
        packet: *const u8,
        packet_length: usize,
        end: u8,
        reply: *mut u8,
        reply_room: usize,
        served: *mut Served,
    ) -> u32;
    fn sandbar_close(node: *mut Node) -> u32;
    fn sandbar_crc(bytes: *const u8, length: usize) -> u8;
}

/// What becomes of a packet that a program judges.
const JUDGED: u8 = 2;

/// One map of one cell, from which tickets are drawn.
const MAP: Map = Map { cells: 1, peak: 0 };

/// The CRC of the bytes, so often.
pub fn crc(bytes: &[u8], rounds: u32) -> u64 {
    (0..rounds).map(|_| u64::from(unsafe { sandbar_crc(bytes.as_ptr(), bytes.len()) })).sum()
}

/// Verifies the image for one map of one cell, so often.
pub fn verify(image: &[u8], rounds: u32) -> u64 {
    let mut why = Why::default();
    for _ in 0..rounds {
        if unsafe { sandbar_verify(&MAP, 1, image.as_ptr(), image.len(), &mut why) } != 0 {
            return REFUSED;
        }
    }
    u64::from(rounds)
}

/// Reads the image so often, and refuses it at slot 0 (`images::refused_at_once`).
pub fn read(image: &[u8], rounds: u32) -> u64 {
    let mut why = Why::default();
    for _ in 0..rounds {
        let code = unsafe { sandbar_verify(&MAP, 1, image.as_ptr(), image.len(), &mut why) };
        if code == 0 || why.slot != 0 {
            return REFUSED;
        }
    }
    u64::from(rounds)
}

/// Opens a node of one port, with one bank and one map of one cell, and serves the packet so often, at most 65,536
/// times; where it is not served at all the node is opened and closed alone. How many bytes the replies have.
pub fn serve(image: &[u8], packet: &[u8], count: u32) -> u64 {
    let bank = Bank { base: 0xA000_0000, size: 65_536, room: 65_536 };
    let mut node = Node { inside: null_mut(), live: 0, unused: 0 };
    let mut why = Why::default();
    let mut served = Served::default();
    let mut reply = [0; 4121];
    let mut sum: u64 = 0;
    unsafe {
        let code = sandbar_open(&mut node, 0xFE, 1, &bank, 1, &MAP, 1, image.as_ptr(), image.len(), &mut why);
        if code != 0 {
            return REFUSED;
        }
        for _packet in 0..count {
            let code = sandbar_serve(
                &mut node,
                0,
                packet.as_ptr(),
                packet.len(),
                0,
                reply.as_mut_ptr(),
                reply.len(),
                &mut served,
            );
            if code != 0 || served.kind != JUDGED {
                return REFUSED;
            }
            sum = sum.wrapping_add(u64::from(served.reply_length));
        }
        if sandbar_close(&mut node) != 0 {
            return REFUSED;
        }
    }
    sum
}
