//! The handshake, and messages in chunks.
use super::cursor::Bad;
use super::{MAX_MESSAGE, MAX_TO_GO};

#[derive(Debug, Clone, Copy, PartialEq, Eq)]
pub enum Version {
    V44,
    V50,
    V51,
}
use Version::{V44, V50, V51};

#[derive(Debug, Clone, Copy, PartialEq, Eq)]
pub enum Wish {
    Newest,
    Only(Version),
}

const MAGIC: [u8; 4] = [0x60, 0x60, 0xB0, 0x17];

/// The bytes of an offer: the magic and four proposals.
pub const OFFER: usize = 20;

/// A version as it is proposed alone, and as it is answered.
pub fn quad(version: Version) -> [u8; 4] {
    match version {
        V44 => [0, 0, 4, 4],
        V50 => [0, 0, 0, 5],
        V51 => [0, 0, 1, 5],
    }
}

/// The versions of a wish.
pub fn wished(wish: Wish) -> &'static [Version] {
    match wish {
        Wish::Newest => &[V51, V50, V44],
        Wish::Only(V51) => &[V51],
        Wish::Only(V50) => &[V50],
        Wish::Only(V44) => &[V44],
    }
}

pub fn offer(wish: Wish) -> [u8; OFFER] {
    let mut out = [0; OFFER];
    out[..4].copy_from_slice(&MAGIC);
    match wish {
        Wish::Newest => out[4..12].copy_from_slice(&[0, 1, 1, 5, 0, 0, 4, 4]),
        Wish::Only(version) => out[4..8].copy_from_slice(&quad(version)),
    }
    out
}

fn covers(proposal: &[u8], version: Version) -> bool {
    let [_, _, minor, major] = quad(version);
    proposal[0] == 0 && proposal[3] == major && (proposal[2].saturating_sub(proposal[1])..=proposal[2]).contains(&minor)
}

/// The newest version that the first proposal covers which covers one; or that the magic is missing.
pub fn choose(offer: &[u8; OFFER]) -> Result<Option<Version>, Bad> {
    if offer[..4] != MAGIC { return Err(Bad); }
    let newest = |proposal: &[u8]| [V51, V50, V44].into_iter().find(|version| covers(proposal, *version));
    Ok(offer[4..].chunks_exact(4).find_map(newest))
}

/// Cuts a stream into messages. One that lies in one chunk of one piece is lent from the piece; others are joined in a buffer that is kept.
#[derive(Default)]
pub struct Dechunk {
    data: Vec<u8>,
    /// The first byte of a chunk's length.
    head: Option<u8>,
    /// Bytes that are missing of the chunk.
    left: usize,
    is_handed_out: bool,
    is_too_big: bool,
}

pub enum Piece<'a> {
    Nothing,
    Noop,
    Message(&'a [u8]),
    TooBig,
}

impl Dechunk {
    /// Uses the piece to the end of the item that is begun, else all of it.
    pub fn feed<'a>(&'a mut self, piece: &'a [u8]) -> (usize, Piece<'a>) {
        if self.is_too_big { return (0, Piece::TooBig); }
        if self.is_handed_out {
            self.is_handed_out = false;
            self.data.clear();
        }
        let mut at = 0;
        loop {
            at += self.gather(&piece[at..]);
            if self.left > 0 { return (at, Piece::Nothing); }
            let Some((used, size)) = self.length(&piece[at..]) else { return (piece.len(), Piece::Nothing) };
            at += used;
            if size == 0 && self.data.is_empty() { return (at, Piece::Noop); }
            if size == 0 {
                self.is_handed_out = true;
                return (at, Piece::Message(&self.data));
            }
            if self.data.len() + size > MAX_MESSAGE {
                self.is_too_big = true;
                self.data = Vec::new();
                return (at, Piece::TooBig);
            }
            if self.data.is_empty() && piece[at..].get(size..size + 2) == Some(&[0, 0]) {
                return (at + size + 2, Piece::Message(&piece[at..at + size]));
            }
            self.left = size;
        }
    }

    /// Takes bytes of the chunk that is begun, and answers how many.
    #[inline(always)]
    fn gather(&mut self, piece: &[u8]) -> usize {
        if self.left == 0 { return 0; }
        let count = self.left.min(piece.len());
        self.data.extend_from_slice(&piece[..count]);
        self.left -= count;
        count
    }

    /// The length of the next chunk and the bytes that it took; or, where it isn't whole, all of the piece is kept.
    #[inline(always)]
    fn length(&mut self, piece: &[u8]) -> Option<(usize, usize)> {
        match (self.head.take(), piece) {
            (Some(high), [low, ..]) => Some((1, u16::from_be_bytes([high, *low]) as usize)),
            (None, [high, low, ..]) => Some((2, u16::from_be_bytes([*high, *low]) as usize)),
            (None, [high]) => {
                self.head = Some(*high);
                None
            }
            (head, []) => {
                self.head = head;
                None
            }
        }
    }
}

/// The bytes that wait to go, and a place in them: what was taken out is dropped when the next ones come, where it is all or is long.
#[derive(Default)]
pub struct Out {
    bytes: Vec<u8>,
    taken: usize,
}

impl Out {
    #[inline]
    pub fn waiting(&self) -> usize { self.bytes.len() - self.taken }

    pub fn take(&mut self, most: usize) -> &[u8] {
        let from = self.taken;
        self.taken += most.min(self.waiting());
        &self.bytes[from..self.taken]
    }

    #[inline]
    fn make_ready(&mut self) {
        if self.taken == self.bytes.len() {
            self.bytes.clear();
            self.taken = 0;
        } else if self.taken >= MAX_TO_GO {
            self.bytes.drain(..self.taken);
            self.taken = 0;
        }
    }

    #[inline]
    pub fn put(&mut self, bytes: &[u8]) {
        self.make_ready();
        self.bytes.extend_from_slice(bytes);
    }

    /// Puts one message in chunks as long as possible, or nothing where it is past the limit.
    #[inline]
    pub fn message(&mut self, write: impl FnOnce(&mut Vec<u8>)) -> Result<(), Bad> {
        self.make_ready();
        self.bytes.extend_from_slice(&[0, 0]);
        let begin = self.bytes.len();
        write(&mut self.bytes);
        let size = self.bytes.len() - begin;
        if size < MAX_MESSAGE {
            self.bytes[begin - 2..begin].copy_from_slice(&(size as u16).to_be_bytes());
        } else if size == MAX_MESSAGE {
            self.bytes[begin - 2..begin].copy_from_slice(&[255, 255]);
            let last = self.bytes[begin + 65_535];
            self.bytes.truncate(begin + 65_535);
            self.bytes.extend_from_slice(&[0, 1, last]);
        } else {
            self.bytes.truncate(begin - 2);
            return Err(Bad);
        }
        self.bytes.extend_from_slice(&[0, 0]);
        Ok(())
    }
}
