//! A node over an image of its flash, which its caller keeps.

use crate::raw;
use std::fmt;
use std::ptr::null_mut;

/// The octets of the image of a flash.
pub const IMAGE: usize = 65_536;

/// A sector that is erased.
static ERASED: [u8; 4096] = [0xff; 4096];

/// What a line that isn't wrong came to.
#[derive(Clone, Copy, Debug, PartialEq, Eq)]
pub enum Line {
    /// It happened: there may be writes, and there is a report.
    Happened,
    /// It is empty or a comment, and says nothing.
    Nothing,
}

/// Why a node isn't opened, or doesn't do what it is asked for. But for `Lost` nothing changed.
#[derive(Clone, Copy, Debug, PartialEq, Eq)]
pub enum Fault {
    /// The image holds no node that can be run.
    NoNode,
    /// There was a Node Reset: the node has to be provisioned anew.
    WasReset,
    /// The line is wrong, and fails by this rule first: 1, 3, 4 or 5, as `meshnoded` numbers them.
    Wrong(u32),
    /// Something of the phase before isn't taken yet: a write, or for a line also the report.
    Waiting,
    /// The node takes no line more, since a write wasn't stored or its memory ran out: drop it, and open it anew from the image that is stored.
    Over,
    /// Memory ran out within the phase, of which nothing is left: to the image it never came. The node is over.
    Lost,
    /// Memory ran out before anything happened.
    Memory,
}

impl fmt::Display for Fault {
    fn fmt(&self, f: &mut fmt::Formatter<'_>) -> fmt::Result {
        match self {
            Fault::NoNode => f.write_str("the image holds no node"),
            Fault::WasReset => f.write_str("the node was reset"),
            Fault::Wrong(rule) => write!(f, "rule {rule}"),
            Fault::Waiting => f.write_str("something isn't taken yet"),
            Fault::Over => f.write_str("the node is over"),
            Fault::Lost | Fault::Memory => f.write_str("out of memory"),
        }
    }
}

impl std::error::Error for Fault {}

/// A node that is linked. It is fed with lines, and hands out the writes of its flash and its report.
///
/// It may go from thread to thread, and isn't shared by two: each call takes it alone. It is closed when it is dropped, and what it wasn't asked for is
/// lost then, as by a loss of power.
///
/// ```no_run
/// # fn main() -> Result<(), Box<dyn std::error::Error>> {
/// use meshnode::{Node, IMAGE};
/// use std::os::unix::fs::FileExt;
/// let file = std::fs::File::options().read(true).write(true).open("lamp.node")?;
/// file.try_lock()?;
/// file.sync_all()?;
/// let mut image = [0; IMAGE];
/// file.read_exact_at(&mut image, 0)?;
/// let mut node = Node::open(&image)?;
/// let put = |at: u32, octets: &[u8]| file.write_all_at(octets, at.into()).and_then(|()| file.sync_data());
/// node.store(put)?;
/// print!("{}", String::from_utf8_lossy(&node.report()?));
/// node.line(b"tick 1")?;
/// node.store(put)?;
/// print!("{}", String::from_utf8_lossy(&node.report()?));
/// # Ok(())
/// # }
/// ```
pub struct Node {
    // All of it is the library's: it is null where there is no node.
    held: raw::Meshnode,
    // The first line of the life, until it is taken.
    first: Vec<u8>,
    // Room for a write.
    octets: Vec<u8>,
}

// The library keeps nothing of a thread, and what it takes memory from serves all of them.
unsafe impl Send for Node {}

impl Node {
    /// Opens a node over an image, which is to be what is durable. Writes are left by it only over an image of format 01, which it migrates: `store`
    /// comes before the first line. Its first report begins with the first line of its life.
    ///
    /// ```
    /// use meshnode::{Fault, Node, IMAGE};
    /// assert_eq!(Node::open(&[0xff; IMAGE]).err(), Some(Fault::NoNode));
    /// ```
    pub fn open(image: &[u8; IMAGE]) -> Result<Node, Fault> {
        let mut node = Node { held: raw::Meshnode { at: null_mut() }, first: vec![0; 64], octets: vec![0; 4096] };
        let mut size = 0;
        // Each pointer here and below is that of its slice, with its length, and the struct is this node's alone.
        let status = unsafe {
            raw::meshnode_node_open(&mut node.held, image.as_ptr(), image.len(), node.first.as_mut_ptr(), node.first.len(), &mut size)
        };
        done(status)?;
        node.first.truncate(size);
        Ok(node)
    }

    /// Gives the node a line of what happens, without its LF, as `meshnoded` with one bearer reads it. All that the line before left is to be taken
    /// before, by `store` and `report`.
    pub fn line(&mut self, line: &[u8]) -> Result<Line, Fault> {
        let mut rule = 0;
        match unsafe { raw::meshnode_node_line(&mut self.held, line.as_ptr(), line.len(), &mut rule) } {
            raw::NOTHING => Ok(Line::Nothing),
            raw::WRONG => Err(Fault::Wrong(rule)),
            status => done(status).map(|()| Line::Happened),
        }
    }

    /// Hands each write that isn't taken yet to `put`, in their order: octets for an offset of the image, within one sector of it; an erase of a
    /// sector as 4,096 octets ff at its beginning. `put` is to make them durable before it answers.
    ///
    /// Where it can't, the node is over, and its error is handed on: what is stored is as after a loss of power. Of a node that is over so it hands
    /// `put` nothing and answers `Ok`; `report` and `line` then say `Over`.
    pub fn store<E>(&mut self, mut put: impl FnMut(u32, &[u8]) -> Result<(), E>) -> Result<(), E> {
        let (mut at, mut size, mut erased) = (0, 0, false);
        loop {
            let room = self.octets.as_mut_ptr();
            match unsafe { raw::meshnode_node_write(&mut self.held, &mut at, room, self.octets.len(), &mut size, &mut erased) } {
                raw::OK => {
                    if let Err(fault) = put(at, if erased { &ERASED } else { &self.octets[..size] }) {
                        self.end();
                        return Err(fault);
                    }
                }
                raw::LENGTH => self.octets.resize(size, 0),
                _ => return Ok(()),
            }
        }
    }

    /// The lines of the report that aren't taken yet, as `meshnoded --hex` writes them, each with its LF. They can't be had before all writes are
    /// stored.
    pub fn report(&mut self) -> Result<Vec<u8>, Fault> {
        let mut text = vec![0; 4096];
        let mut size = 0;
        loop {
            match unsafe { raw::meshnode_node_report(&mut self.held, text.as_mut_ptr(), text.len(), &mut size) } {
                raw::LENGTH => text.resize(size, 0),
                status => break done(status)?,
            }
        }
        text.truncate(size);
        let mut all = std::mem::take(&mut self.first);
        all.append(&mut text);
        Ok(all)
    }

    /// In how many ticks of 10 ms something of the node is due; none where it is over. Until then it has nothing to do.
    pub fn due(&mut self) -> Option<u32> {
        let mut ticks = 0;
        let status = unsafe { raw::meshnode_node_due(&mut self.held, &mut ticks) };
        (status == raw::OK).then_some(ticks)
    }

    /// Ends the life: its last line, or nothing where something wasn't taken or the node is over.
    pub fn close(mut self) -> Vec<u8> {
        self.end()
    }

    // Ends the life and frees the node, if there is one.
    fn end(&mut self) -> Vec<u8> {
        let mut text = vec![0; 4];
        let mut size = 0;
        let status = unsafe { raw::meshnode_node_close(&mut self.held, text.as_mut_ptr(), text.len(), &mut size) };
        text.truncate(if status == raw::OK && self.first.is_empty() { size } else { 0 });
        text
    }
}

impl Drop for Node {
    fn drop(&mut self) {
        self.end();
    }
}

// What a number of the library's is; no other than these comes from a node.
fn done(status: u32) -> Result<(), Fault> {
    match status {
        raw::OK => Ok(()),
        raw::NO_NODE => Err(Fault::NoNode),
        raw::WAS_RESET => Err(Fault::WasReset),
        raw::WAITING => Err(Fault::Waiting),
        raw::EMPTY | raw::OVER => Err(Fault::Over),
        raw::LOST => Err(Fault::Lost),
        _ => Err(Fault::Memory),
    }
}
