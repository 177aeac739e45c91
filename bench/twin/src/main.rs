//! The plain twin of `ring_bench`: takes buffers through both ends of a split virtqueue (VIRTIO 1.2, 2.7) over one guest
//! memory, in ordinary safe Rust without proofs, to measure the proved program against.
//!
//! `twin N [SIZE [IN_FLIGHT]]` takes N buffers through a ring of SIZE descriptors, IN_FLIGHT of them a round, and prints
//! how many buffers and bytes came back.

use std::env;
use std::mem;
use std::process::ExitCode;

/// The bytes of guest memory.
const MEMORY: usize = 0x200_0000;

/// Where the ring's descriptors begin, and from there to its driver area, its device area and its data.
const BASE: u64 = 0x100_0000;
const DRIVER_AREA: u64 = 0x4000;
const DEVICE_AREA: u64 = 0x6000;
const DATA: u64 = 0x40_0000;

/// The bytes that are set aside for the data of one buffer.
const DATA_LEN: u64 = 0x2000;

/// The most descriptors of a ring.
const GREATEST_SIZE: u16 = 1024;

/// The most pieces of a buffer, bytes of a piece, and bytes of a buffer.
const PIECES: usize = 8;
const PIECE_LEN: u32 = 4096;
const BUFFER_LEN: usize = 8192;

/// The bytes of each piece that the benchmark posts.
const PIECE: u16 = 64;

/// Flags of a descriptor and of the driver area.
const NEXT: u16 = 1;
const WRITE: u16 = 2;
const INDIRECT: u16 = 4;
const NO_INTERRUPT: u16 = 1;

/// Why a run stops.
#[derive(Clone, Copy, Debug, PartialEq, Eq)]
enum Fault {
    /// A range passes the end of guest memory.
    Outside,
    /// The ring shows what no driver may put there.
    Malformed,
}

/// Guest memory, by addresses from 0.
struct Memory {
    bytes: Box<[u8; MEMORY]>,
}

impl Memory {
    fn new() -> Self {
        let bytes = vec![0; MEMORY].into_boxed_slice();
        Memory {
            bytes: bytes.try_into().expect("the length of guest memory"),
        }
    }

    /// Where the `len` bytes from `addr` on begin.
    fn start(addr: u64, len: usize) -> Result<usize, Fault> {
        let last = MEMORY.checked_sub(len).ok_or(Fault::Outside)?;
        let start = usize::try_from(addr).map_err(|_| Fault::Outside)?;
        if start <= last {
            Ok(start)
        } else {
            Err(Fault::Outside)
        }
    }

    /// The `len` bytes from `addr` on.
    fn get(&self, addr: u64, len: usize) -> Result<&[u8], Fault> {
        let start = Memory::start(addr, len)?;
        Ok(&self.bytes[start..start + len])
    }

    /// The `LEN` bytes from `addr` on, as an array.
    fn read<const LEN: usize>(&self, addr: u64) -> Result<&[u8; LEN], Fault> {
        self.get(addr, LEN)?.try_into().map_err(|_| Fault::Outside)
    }

    fn read_u16(&self, addr: u64) -> Result<u16, Fault> {
        Ok(u16::from_le_bytes(*self.read(addr)?))
    }

    /// Puts bytes from `addr` on.
    fn write(&mut self, addr: u64, bytes: &[u8]) -> Result<(), Fault> {
        let start = Memory::start(addr, bytes.len())?;
        self.bytes[start..start + bytes.len()].copy_from_slice(bytes);
        Ok(())
    }
}

/// A ring in guest memory: its three areas, and its size, a power of two.
#[derive(Clone, Copy)]
struct Ring {
    descriptors: u64,
    driver: u64,
    device: u64,
    size: u16,
}

impl Ring {
    fn at(base: u64, size: u16) -> Self {
        Ring {
            descriptors: base,
            driver: base + DRIVER_AREA,
            device: base + DEVICE_AREA,
            size,
        }
    }

    fn descriptor(&self, place: u16) -> u64 {
        self.descriptors + 16 * u64::from(place)
    }

    /// The place of a running index in the available or the used ring.
    fn place(&self, index: u16) -> u64 {
        u64::from(index & (self.size - 1))
    }

    fn available(&self, index: u16) -> u64 {
        self.driver + 4 + 2 * self.place(index)
    }

    fn available_index(&self) -> u64 {
        self.driver + 2
    }

    fn used(&self, index: u16) -> u64 {
        self.device + 4 + 8 * self.place(index)
    }

    fn used_index(&self) -> u64 {
        self.device + 2
    }
}

/// An entry of the descriptor table.
struct Descriptor {
    addr: u64,
    len: u32,
    flags: u16,
    next: u16,
}

impl Descriptor {
    fn to_bytes(&self) -> [u8; 16] {
        let mut bytes = [0; 16];
        bytes[..8].copy_from_slice(&self.addr.to_le_bytes());
        bytes[8..12].copy_from_slice(&self.len.to_le_bytes());
        bytes[12..14].copy_from_slice(&self.flags.to_le_bytes());
        bytes[14..].copy_from_slice(&self.next.to_le_bytes());
        bytes
    }

    fn from_bytes(bytes: &[u8; 16]) -> Self {
        let whole = u128::from_le_bytes(*bytes);
        Descriptor {
            addr: whole as u64,
            len: (whole >> 64) as u32,
            flags: (whole >> 96) as u16,
            next: (whole >> 112) as u16,
        }
    }
}

/// A piece of a chain, which the device reads, or writes where `write`.
#[derive(Clone, Copy, Default)]
struct Piece {
    addr: u64,
    len: u32,
    write: bool,
}

/// Room for the bytes of one buffer.
struct Room {
    bytes: [u8; BUFFER_LEN],
    len: usize,
}

impl Room {
    fn new() -> Self {
        Room {
            bytes: [0; BUFFER_LEN],
            len: 0,
        }
    }

    fn clear(&mut self) {
        self.len = 0;
    }

    /// Adds bytes. They are malformed where there is no room for them.
    fn extend(&mut self, bytes: &[u8]) -> Result<(), Fault> {
        let place = self.bytes[self.len..]
            .get_mut(..bytes.len())
            .ok_or(Fault::Malformed)?;
        place.copy_from_slice(bytes);
        self.len += bytes.len();
        Ok(())
    }

    fn as_slice(&self) -> &[u8] {
        &self.bytes[..self.len]
    }
}

/// A chain that the device took: its head and its pieces, the readable ones first.
#[derive(Default)]
struct Chain {
    head: u16,
    pieces: [Piece; PIECES],
    count: usize,
    readable: usize,
    len: u32,
}

impl Chain {
    fn begin(&mut self, head: u16) {
        self.head = head;
        self.readable = 0;
        self.count = 0;
        self.len = 0;
    }

    /// Adds a piece where the rules allow it: it has 1 to 4,096 bytes inside memory, no readable one follows a writable
    /// one, and the chain keeps to 8 pieces and 8,192 bytes.
    fn push(&mut self, memory: &Memory, piece: Piece) -> Result<(), Fault> {
        memory.get(piece.addr, piece.len as usize)?;
        let place = self.pieces.get_mut(self.count).ok_or(Fault::Malformed)?;
        if piece.len == 0 || piece.len > PIECE_LEN {
            return Err(Fault::Malformed);
        }
        *place = piece;
        if !piece.write {
            if self.readable < self.count {
                return Err(Fault::Malformed);
            }
            self.readable += 1;
        }
        self.count += 1;
        self.len += piece.len;
        if self.len as usize > BUFFER_LEN {
            return Err(Fault::Malformed);
        }
        Ok(())
    }

    /// Fills a room with the bytes of the readable pieces.
    fn gather(&self, memory: &Memory, room: &mut Room) -> Result<(), Fault> {
        room.clear();
        for piece in &self.pieces[..self.readable] {
            room.extend(memory.get(piece.addr, piece.len as usize)?)?;
        }
        Ok(())
    }

    /// Writes bytes over the writable pieces, as many as there is room for. Answers how many.
    fn scatter(&self, memory: &mut Memory, bytes: &[u8]) -> Result<u32, Fault> {
        let mut left = bytes;
        for piece in &self.pieces[self.readable..self.count] {
            let (now, later) = left.split_at(left.len().min(piece.len as usize));
            memory.write(piece.addr, now)?;
            left = later;
        }
        Ok((bytes.len() - left.len()) as u32)
    }
}

/// The device's end of the ring.
struct Device {
    ring: Ring,
    taken: u16,
    used: u16,
}

impl Device {
    fn new(ring: Ring) -> Self {
        Device {
            ring,
            taken: 0,
            used: 0,
        }
    }

    /// Takes the next chain that the driver made available. False where there is none.
    fn take(&mut self, memory: &Memory, chain: &mut Chain) -> Result<bool, Fault> {
        let available = memory.read_u16(self.ring.available_index())?;
        let waiting = available.wrapping_sub(self.taken);
        if waiting == 0 {
            return Ok(false);
        }
        if waiting > self.ring.size {
            return Err(Fault::Malformed);
        }
        let head = memory.read_u16(self.ring.available(self.taken))?;
        self.walk(memory, head, chain)?;
        self.taken = self.taken.wrapping_add(1);
        Ok(true)
    }

    /// Walks the chain that begins at a head.
    fn walk(&self, memory: &Memory, head: u16, chain: &mut Chain) -> Result<(), Fault> {
        chain.begin(head);
        let mut place = head;
        for _ in 0..self.ring.size {
            if place >= self.ring.size {
                return Err(Fault::Malformed);
            }
            let descriptor = Descriptor::from_bytes(memory.read(self.ring.descriptor(place))?);
            if descriptor.flags & INDIRECT != 0 {
                return Err(Fault::Malformed);
            }
            let piece = Piece {
                addr: descriptor.addr,
                len: descriptor.len,
                write: descriptor.flags & WRITE != 0,
            };
            chain.push(memory, piece)?;
            if descriptor.flags & NEXT == 0 {
                return Ok(());
            }
            place = descriptor.next;
        }
        Err(Fault::Malformed)
    }

    /// Gives a chain back, with so many bytes written. Answers whether the driver wants a signal.
    fn give(&mut self, memory: &mut Memory, head: u16, written: u32) -> Result<bool, Fault> {
        let element = u64::from(head) | u64::from(written) << 32;
        memory.write(self.ring.used(self.used), &element.to_le_bytes())?;
        self.used = self.used.wrapping_add(1);
        memory.write(self.ring.used_index(), &self.used.to_le_bytes())?;
        Ok(memory.read_u16(self.ring.driver)? & NO_INTERRUPT == 0)
    }
}

/// The free descriptors of a ring, as a list: each names the one that follows.
struct FreeList {
    next: [u16; GREATEST_SIZE as usize],
    first: u16,
    count: usize,
}

impl FreeList {
    fn all(size: u16) -> Self {
        FreeList {
            next: std::array::from_fn(|place| place as u16 + 1),
            first: 0,
            count: usize::from(size),
        }
    }

    /// The descriptor that follows another, in the list or in a chain that was taken from it.
    fn after(&self, place: u16) -> u16 {
        self.next[usize::from(place)]
    }

    /// Takes the first descriptors of the list, up to `last`.
    fn take_to(&mut self, last: u16, count: usize) {
        self.first = self.after(last);
        self.count -= count;
    }

    /// Gives a chain back that was taken.
    fn give_back(&mut self, first: u16, last: u16, count: usize) {
        self.next[usize::from(last)] = self.first;
        self.first = first;
        self.count += count;
    }
}

/// The tags of the unreaped buffers, a bit for each tag.
struct Tags {
    words: [u64; 1024],
}

impl Tags {
    fn new() -> Self {
        Tags { words: [0; 1024] }
    }

    fn holds(&self, tag: u16) -> bool {
        self.words[usize::from(tag / 64)] >> (tag % 64) & 1 == 1
    }

    fn flip(&mut self, tag: u16) {
        self.words[usize::from(tag / 64)] ^= 1 << (tag % 64);
    }
}

/// A buffer to be posted: its readable bytes, and the lengths of its pieces, of which the first few are readable.
struct Buffer {
    readable: &'static [u8],
    lengths: &'static [u16],
    readable_pieces: usize,
}

/// The buffer that the benchmark posts.
const BUFFER: Buffer = Buffer {
    readable: &[0; PIECE as usize],
    lengths: &[PIECE, PIECE],
    readable_pieces: 1,
};

/// What the driver keeps of an unreaped buffer: its tag, its readable bytes, its last descriptor, and how many it has. A
/// head without an unreaped buffer has none.
#[derive(Clone, Copy, Default)]
struct Posted {
    tag: u16,
    readable: u16,
    last: u16,
    count: u16,
}

/// The driver's end of the ring.
struct Driver {
    ring: Ring,
    data: u64,
    available: u16,
    used: u16,
    free: FreeList,
    tags: Tags,
    unreaped: [Posted; GREATEST_SIZE as usize],
}

impl Driver {
    fn new(ring: Ring) -> Self {
        Driver {
            ring,
            data: ring.descriptors + DATA,
            available: 0,
            used: 0,
            free: FreeList::all(ring.size),
            tags: Tags::new(),
            unreaped: [Posted::default(); GREATEST_SIZE as usize],
        }
    }

    fn data_of(&self, head: u16) -> u64 {
        self.data + DATA_LEN * u64::from(head)
    }

    /// Posts a buffer. False where its tag is in use, or too few descriptors are free.
    fn post(&mut self, memory: &mut Memory, tag: u16, buffer: &Buffer) -> Result<bool, Fault> {
        let count = buffer.lengths.len();
        if self.tags.holds(tag) || self.free.count < count {
            return Ok(false);
        }
        let head = self.free.first;
        memory.write(self.data_of(head), buffer.readable)?;
        let last = self.put_descriptors(memory, head, buffer)?;
        memory.write(self.ring.available(self.available), &head.to_le_bytes())?;
        self.available = self.available.wrapping_add(1);
        memory.write(self.ring.available_index(), &self.available.to_le_bytes())?;
        self.free.take_to(last, count);
        self.tags.flip(tag);
        self.unreaped[usize::from(head)] = Posted {
            tag,
            readable: buffer.readable.len() as u16,
            last,
            count: count as u16,
        };
        Ok(true)
    }

    /// Writes the descriptors of a buffer, whose pieces lie one after the other. Answers where the last one is.
    fn put_descriptors(
        &self,
        memory: &mut Memory,
        head: u16,
        buffer: &Buffer,
    ) -> Result<u16, Fault> {
        let mut addr = self.data_of(head);
        let mut place = head;
        let last = buffer.lengths.len() - 1;
        for (i, &len) in buffer.lengths.iter().enumerate() {
            let next = self.free.after(place);
            let write = if i < buffer.readable_pieces { 0 } else { WRITE };
            let descriptor = Descriptor {
                addr,
                len: u32::from(len),
                flags: write | if i < last { NEXT } else { 0 },
                next: if i < last { next } else { 0 },
            };
            memory.write(self.ring.descriptor(place), &descriptor.to_bytes())?;
            addr += u64::from(len);
            if i < last {
                place = next;
            }
        }
        Ok(place)
    }

    /// Reaps the next used buffer and fills a room with the bytes that the device wrote. Answers how many they are; None
    /// where no unreaped buffer was used.
    fn reap(&mut self, memory: &Memory, room: &mut Room) -> Result<Option<u32>, Fault> {
        if memory.read_u16(self.ring.used_index())? == self.used {
            return Ok(None);
        }
        let element = u64::from_le_bytes(*memory.read(self.ring.used(self.used))?);
        let (id, len) = (element as u32, (element >> 32) as u32);
        let Some(place) = self.unreaped.get_mut(id as usize) else {
            return Ok(None);
        };
        let posted = mem::take(place);
        if posted.count == 0 || len as usize > BUFFER_LEN {
            return Ok(None);
        }
        let head = id as u16;
        let written = self.data_of(head) + u64::from(posted.readable);
        room.clear();
        room.extend(memory.get(written, len as usize)?)?;
        self.free
            .give_back(head, posted.last, usize::from(posted.count));
        self.tags.flip(posted.tag);
        self.used = self.used.wrapping_add(1);
        Ok(Some(len))
    }
}

/// What was reaped so far.
#[derive(Default)]
struct Counts {
    buffers: u32,
    bytes: u64,
}

/// Both ends of one ring over one guest memory.
struct Rings {
    memory: Memory,
    driver: Driver,
    device: Device,
    tag: u16,
    chain: Chain,
    room: Room,
}

impl Rings {
    fn new(size: u16) -> Self {
        let ring = Ring::at(BASE, size);
        Rings {
            memory: Memory::new(),
            driver: Driver::new(ring),
            device: Device::new(ring),
            tag: 0,
            chain: Chain::default(),
            room: Room::new(),
        }
    }

    /// Posts at most `left` buffers, until the ring is full. Answers how many.
    fn post(&mut self, left: u32) -> Result<u32, Fault> {
        for posted in 0..left {
            if !self.driver.post(&mut self.memory, self.tag, &BUFFER)? {
                return Ok(posted);
            }
            self.tag = self.tag.wrapping_add(1);
        }
        Ok(left)
    }

    /// Takes at most `left` chains, writes the readable bytes of each over its writable ones, and gives it back.
    fn serve(&mut self, left: u32) -> Result<(), Fault> {
        for _ in 0..left {
            if !self.device.take(&self.memory, &mut self.chain)? {
                return Ok(());
            }
            self.chain.gather(&self.memory, &mut self.room)?;
            let written = self.chain.scatter(&mut self.memory, self.room.as_slice())?;
            self.device
                .give(&mut self.memory, self.chain.head, written)?;
        }
        Ok(())
    }

    /// Reaps at most `left` buffers, until none is used. Answers how many.
    fn reap(&mut self, left: u32, counts: &mut Counts) -> Result<u32, Fault> {
        for reaped in 0..left {
            let Some(len) = self.driver.reap(&self.memory, &mut self.room)? else {
                return Ok(reaped);
            };
            counts.buffers += 1;
            counts.bytes += u64::from(len);
        }
        Ok(left)
    }

    /// Takes `count` buffers through the ring, `in_flight` a round, until a round reaps less than it posted.
    fn carry(&mut self, count: u32, in_flight: u32) -> Result<Counts, Fault> {
        let mut counts = Counts::default();
        while counts.buffers < count {
            let left = in_flight.min(count - counts.buffers);
            let posted = self.post(left)?;
            self.serve(left)?;
            if posted == 0 || self.reap(left, &mut counts)? < posted {
                break;
            }
        }
        Ok(counts)
    }
}

/// What the words of the command line ask for.
struct Task {
    count: u32,
    size: u16,
    in_flight: u32,
}

/// The task of the words `N [SIZE [IN_FLIGHT]]`: a size is a power of two up to 1,024, 256 where none is given, and the
/// buffers in flight fit the ring; they fill it where their number isn't given.
fn task(words: &[String]) -> Option<Task> {
    let (count, size, in_flight) = match words {
        [count] => (count, None, None),
        [count, size] => (count, Some(size), None),
        [count, size, in_flight] => (count, Some(size), Some(in_flight)),
        _ => return None,
    };
    let count = count.parse().ok()?;
    let size = size.map_or(Some(256), |word| word.parse::<u16>().ok())?;
    let fits = u32::from(size / 2);
    let in_flight = in_flight.map_or(Some(fits), |word| word.parse().ok())?;
    let is_size = size.is_power_of_two() && size <= GREATEST_SIZE;
    (is_size && 1 <= in_flight && in_flight <= fits).then_some(Task {
        count,
        size,
        in_flight,
    })
}

fn main() -> ExitCode {
    let words: Vec<String> = env::args().skip(1).collect();
    let Some(task) = task(&words) else {
        println!("usage: twin N [SIZE [IN_FLIGHT]]");
        return ExitCode::from(2);
    };
    match Rings::new(task.size).carry(task.count, task.in_flight) {
        Ok(counts) => {
            println!("buffers={} bytes={}", counts.buffers, counts.bytes);
            ExitCode::SUCCESS
        }
        Err(fault) => {
            eprintln!("{fault:?}");
            ExitCode::FAILURE
        }
    }
}
