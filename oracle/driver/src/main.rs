//! Answers box scripts with the original code of vm-memory 0.18.0.
//!
//! A script comes on standard input, one answer a line goes to standard output. With `--bare` the
//! questions that the originals do not put (soundness of a region, room in a table) are left out,
//! to show what the originals do without them.

mod addresses;
mod answer;
mod command;
mod host;

use std::io::{self, BufRead, BufWriter, Write};
use std::panic::{self, AssertUnwindSafe};
use std::sync::Arc;

use vm_memory::iommu::{Error as IommuError, IotlbIterator};
use vm_memory::{
    GuestAddress, GuestMemory, GuestMemoryBackend, GuestMemoryError, GuestRegionCollection, Iommu,
    IommuMemory, Iotlb, Permissions, VolatileSlice,
};

use answer::Refusal;
use command::Command;
use host::{Host, Shape, Slot};

#[cfg(not(target_pointer_width = "64"))]
compile_error!("the comparison is about counts of 64 bits");

type Collection = GuestRegionCollection<Slot>;

/// The translator below a memory whose translation is off. It is never asked.
#[derive(Debug)]
struct Unasked;

impl Iommu for Unasked {
    type IotlbGuard<'a> = &'a Iotlb;

    fn translate(
        &self,
        _: GuestAddress,
        _: usize,
        _: Permissions,
    ) -> Result<IotlbIterator<&Iotlb>, IommuError> {
        unreachable!("translation is off")
    }
}

/// The memory of a box. Frame memory does not exist in the originals: it is the collection of its
/// present frames, and all that is asked of it is asked of that collection.
struct Memory {
    above: IommuMemory<Collection, Unasked>,
    frames: bool,
}

impl Memory {
    fn new(collection: Collection, frames: bool) -> Self {
        Memory { above: IommuMemory::new(collection, Unasked, false, ()), frames }
    }

    fn regions(&self) -> &Collection {
        self.above.get_backend()
    }
}

#[derive(Default)]
struct Machine {
    bare: bool,
    host: Option<Arc<Host>>,
    pending: Vec<Shape>,
    memory: Option<Memory>,
}

/// An answer, `None` being `error`.
type Answer = Option<String>;

fn said(answer: Result<String, Refusal>) -> Answer {
    Some(answer.unwrap_or_else(|refusal| refusal.text()))
}

const FRAME: u64 = 0x1000;

impl Machine {
    fn perform(&mut self, command: Command) -> Answer {
        match command {
            Command::Host(length) => {
                self.host = Some(Arc::new(Host::new(length as usize)));
                self.pending.clear();
                self.memory = None;
                Some("ok".to_string())
            }
            Command::Region(shape) => {
                self.host.as_ref()?;
                self.pending.push(shape);
                Some("ok".to_string())
            }
            Command::Collect => {
                let host = Arc::clone(self.host.as_ref()?);
                let table = std::mem::take(&mut self.pending);
                said(self.collect(&host, table))
            }
            Command::Frames(base, entries) => {
                let host = Arc::clone(self.host.as_ref()?);
                said(self.frames(&host, base, &entries))
            }
            Command::Insert(room, shape) => {
                let host = Arc::clone(self.host.as_ref()?);
                self.memory.as_ref().filter(|memory| !memory.frames)?;
                said(self.insert(&host, room, shape))
            }
            Command::Remove(room, start, length) => {
                self.memory.as_ref().filter(|memory| !memory.frames)?;
                said(self.remove(room, start, length))
            }
            Command::Count => {
                Some(format!("ok {:#x}", self.memory.as_ref()?.regions().num_regions()))
            }
            Command::Find(address) => {
                let found = self.memory.as_ref()?.regions().find_region(GuestAddress(address));
                Some(match found {
                    Some(slot) => format!("ok {}", answer::region(&slot.shape)),
                    None => "none".to_string(),
                })
            }
            Command::Last => {
                Some(format!("ok {:#x}", self.memory.as_ref()?.regions().last_addr().0))
            }
            Command::Add(address, n) => Some(addresses::add(address, n)),
            Command::Sub(address, n) => Some(addresses::sub(address, n)),
            Command::Offset(address, base) => Some(addresses::offset(address, base)),
            Command::Mask(address, mask) => Some(addresses::mask(address, mask)),
            Command::Slices(address, count, access) => {
                let (host, memory) = (self.host.as_ref()?, self.memory.as_ref()?);
                said(slices(host, memory, address, count, access))
            }
            Command::Bytes(place, count) => {
                // The buffer of a box is the one that was stated, so a wrong length is no question
                // that a script can put (a new `host` forgets every memory above the old one).
                let host = self.host.as_ref()?;
                said(bytes(host, place, count))
            }
            Command::Digest => Some(format!("ok {:#x}", self.host.as_ref()?.digest())),
        }
    }

    fn collect(&mut self, host: &Arc<Host>, table: Vec<Shape>) -> Result<String, Refusal> {
        // The originals put no question about a region by itself. An empty table has no unsound
        // region, so that the original's own first question still comes first.
        if let Some(index) = table.iter().position(|shape| !shape.sound(host)) {
            if !self.bare {
                return Err(Refusal::BadRegion(index as u64));
            }
        }
        let regions = table.into_iter().map(|shape| shape.over(host)).collect();
        let collection = Collection::from_regions(regions)?;
        Ok(self.stand(collection, false))
    }

    /// The originals have no frame memory: its shape is asked here. One without a present frame is
    /// an empty collection, which `from_regions` would refuse.
    fn frames(&mut self, host: &Arc<Host>, base: u64, entries: &[u32]) -> Result<String, Refusal> {
        let end = u128::from(base) + u128::from(FRAME) * entries.len() as u128;
        if !base.is_multiple_of(FRAME) || !(1..=1024).contains(&entries.len()) || end > 1 << 64 {
            return Err(Refusal::BadRegion(0));
        }
        let past = |entry: &u32| FRAME * u64::from(*entry) > host.length();
        if let Some(index) = entries.iter().position(past) {
            return Err(Refusal::BadRegion(index as u64));
        }
        let present = entries.iter().enumerate().filter(|(_, entry)| **entry != 0);
        let regions: Vec<Slot> = present
            .map(|(n, entry)| Shape {
                start: base + FRAME * n as u64,
                length: FRAME,
                place: Some(FRAME * (u64::from(*entry) - 1)),
            })
            .map(|shape| shape.over(host))
            .collect();
        let collection = match regions.is_empty() {
            true => Collection::new(),
            false => Collection::from_regions(regions)?,
        };
        Ok(self.stand(collection, true))
    }

    fn insert(&mut self, host: &Arc<Host>, room: u64, shape: Shape) -> Result<String, Refusal> {
        let regions = self.memory.as_ref().expect("a memory").regions();
        // The originals allocate the new table and ask neither for room nor for a sound region.
        if !self.bare {
            if room < regions.num_regions() as u64 + 1 {
                return Err(Refusal::NoRoom);
            }
            if !shape.sound(host) {
                return Err(Refusal::BadRegion(0));
            }
        }
        let collection = regions.insert_region(Arc::new(shape.over(host)))?;
        Ok(self.stand(collection, false))
    }

    fn remove(&mut self, room: u64, start: u64, length: u64) -> Result<String, Refusal> {
        let regions = self.memory.as_ref().expect("a memory").regions();
        let (collection, removed) = regions.remove_region(GuestAddress(start), length)?;
        // Asked here and after the original's question, since the originals allocate the new table.
        if !self.bare && room < collection.num_regions() as u64 {
            return Err(Refusal::NoRoom);
        }
        Ok(format!("{} {}", self.stand(collection, false), answer::region(&removed.shape)))
    }

    /// Puts the memory above a collection and tells its count.
    fn stand(&mut self, collection: Collection, frames: bool) -> String {
        let count = collection.num_regions();
        self.memory = Some(Memory::new(collection, frames));
        format!("ok {count:#x}")
    }
}

/// The originals make permissions from no number: asked here.
fn permissions(raw: u64) -> Result<Permissions, Refusal> {
    Ok(match raw {
        0 => Permissions::No,
        1 => Permissions::Read,
        2 => Permissions::Write,
        3 => Permissions::ReadWrite,
        _ => return Err(Refusal::BadPermissions),
    })
}

fn slices(
    host: &Host,
    memory: &Memory,
    address: u64,
    count: u64,
    access: u64,
) -> Result<String, Refusal> {
    let access = permissions(access)?;
    let (address, count) = (GuestAddress(address), count as usize);
    let above = draws(host, memory.above.get_slices(address, count, access)?);
    let below = draws(host, GuestMemoryBackend::get_slices(memory.regions(), address, count));
    assert_eq!(above, below, "the memory and its backend differ");
    Ok(above)
}

/// Every draw, the refused one last.
fn draws<'a>(
    host: &Host,
    mut cursor: impl Iterator<Item = Result<VolatileSlice<'a>, GuestMemoryError>>,
) -> String {
    let mut text = "ok".to_string();
    for draw in cursor.by_ref() {
        match draw {
            Ok(slice) => text += &format!(" {:#x}+{:#x}", host.place(&slice), slice.len()),
            Err(error) => text += &format!(" {}", Refusal::from(error).text()),
        }
    }
    // A cursor that has ended, or whose draw was refused, answers nothing more.
    assert!(cursor.next().is_none(), "a draw after the end");
    text
}

/// Bytes of a piece: the original's question whether the piece lies in the buffer, and its copy.
fn bytes(host: &Host, place: u64, count: u64) -> Result<String, Refusal> {
    let piece =
        host.whole().subslice(place as usize, count as usize).map_err(GuestMemoryError::from)?;
    let mut bytes = vec![0u8; count as usize];
    piece.copy_to(&mut bytes);
    Ok(format!("ok {}", answer::bytes(&bytes)))
}

/// What a line is answered, if anything. That it is text comes before what it says.
fn answer(machine: &mut Machine, line: &[u8]) -> Option<String> {
    let error = || "error".to_string();
    let Ok(line) = std::str::from_utf8(line) else {
        return Some(error());
    };
    if line.starts_with('#') || line.bytes().all(|byte| byte == b' ') {
        return None;
    }
    let answered = panic::catch_unwind(AssertUnwindSafe(|| {
        command::parse(line).and_then(|command| machine.perform(command))
    }));
    Some(match answered {
        Ok(answer) => answer.unwrap_or_else(error),
        Err(why) => {
            let why = why
                .downcast_ref::<String>()
                .map(String::as_str)
                .or(why.downcast_ref::<&str>().copied())
                .unwrap_or("of another kind");
            format!("panic {}", why.replace('\n', " "))
        }
    })
}

fn main() -> io::Result<()> {
    let mut machine = Machine::default();
    for word in std::env::args().skip(1) {
        match word.as_str() {
            "--bare" => machine.bare = true,
            _ => {
                eprintln!("oracle [--bare] < script > answers");
                std::process::exit(2);
            }
        }
    }
    // A panic of the originals is an answer, not a message.
    panic::set_hook(Box::new(|_| {}));
    let mut input = io::stdin().lock();
    let mut output = BufWriter::new(io::stdout().lock());
    let mut line = Vec::new();
    while input.read_until(b'\n', &mut line)? != 0 {
        if line.last() == Some(&b'\n') {
            line.pop();
        }
        if let Some(answer) = answer(&mut machine, &line) {
            writeln!(output, "{answer}")?;
        }
        line.clear();
    }
    output.flush()
}
