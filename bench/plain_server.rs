//! The measure for scripts: serves the loads of loads.py as `f11` does, in plain Rust, and prints the same. A session in a thread of its own asks a
//! desk under a lock. The desk has the list of accepted requests, the image as it was mounted and as it is, and where a script has a VIEW two versions
//! for readers, of which one is shown. At the end the list is compared with the sessions' calls. Blocks of requests and answers are shared.
//! It checks of an image and of a line what these loads need, and knows no headers past 16 and no chains of several headers.
//!
//! usage: plain_server IMAGE SCRIPT..

use std::io::Write;
use std::sync::atomic::{AtomicUsize, Ordering};
use std::sync::{Arc, Mutex, RwLock};

#[derive(Clone, Copy, PartialEq, Eq)]
struct Block([u8; 512]);

#[derive(Clone, Copy, PartialEq, Eq)]
struct FileId {
    number: u16,
    sequence: u16,
}

#[derive(Clone, Copy, PartialEq, Eq)]
struct Uic {
    group: u8,
    member: u8,
}

#[derive(Clone, Copy, PartialEq, Eq)]
struct Name {
    words: [u16; 3],
    ext: u16,
}

impl Name {
    /// As an entry has it.
    fn bytes(&self) -> [u8; 8] {
        let mut bytes = [0; 8];
        for (k, word) in self.words.into_iter().chain([self.ext]).enumerate() {
            bytes[2 * k..2 * k + 2].copy_from_slice(&word.to_le_bytes());
        }
        bytes
    }
}

#[derive(Clone, Copy, PartialEq, Eq)]
struct Stamp([u8; 13]);

#[derive(Clone, PartialEq, Eq)]
#[allow(dead_code)]
enum Request {
    Create {
        name: Name,
        version: u16,
        blocks: u32,
        stamp: Stamp,
    },
    Extend {
        file: FileId,
        blocks: u32,
    },
    Delete {
        file: FileId,
    },
    Enter {
        dir: FileId,
        name: Name,
        version: Option<u16>,
        file: FileId,
    },
    LookUp {
        dir: FileId,
        name: Name,
    },
    Remove {
        dir: FileId,
        name: Name,
    },
    Read {
        file: FileId,
        vbn: u32,
    },
    Write {
        file: FileId,
        vbn: u32,
        block: Arc<Block>,
    },
}

#[derive(Clone, PartialEq, Eq)]
#[allow(dead_code)]
enum Answer {
    Created(FileId),
    Extended(u32),
    Done,
    Entered(u16),
    Found(FileId, u16),
    Removed(FileId, u16),
    Bytes(Arc<Block>),
    Names(Vec<(Name, u16, FileId)>),
}

#[derive(Clone, Copy, PartialEq, Eq)]
enum Refusal {
    VolumeFull = 22,
    HeadersFull = 23,
    NoSuchName = 30,
    NameTaken = 31,
    NoSuchFile = 40,
    Reserved = 41,
    NotADirectory = 42,
    IsDirectory = 43,
    Denied = 45,
    NoSuchBlock = 46,
    ListFull = 48,
}

struct Entry {
    session: u16,
    nth: u32,
    who: Uic,
    request: Request,
    answer: Answer,
}

struct Call {
    nth: u32,
    who: Uic,
    request: Request,
    answer: Answer,
}

enum Reply {
    Got(Answer),
    No(Refusal),
    Bad,
}

enum Id {
    Given(FileId),
    Last,
}

impl Id {
    fn means(&self, last: Option<FileId>) -> Option<FileId> {
        match self {
            Id::Given(file) => Some(*file),
            Id::Last => last,
        }
    }
}

enum Action {
    Create { name: Name, version: u16, blocks: u32 },
    Extend { file: Id, blocks: u32 },
    Delete { file: Id },
    Enter { dir: Id, name: Name, version: Option<u16>, file: Id },
    LookUp { dir: Id, name: Name },
    Remove { dir: Id, name: Name },
    Read { file: Id, vbn: u32 },
    Write { file: Id, vbn: u32, block: Arc<Block> },
    View { file: Id, vbn: u32 },
    Bad,
}

/// The request that a command makes, where `$` stands for a file.
fn request_of(action: &Action, last: Option<FileId>) -> Option<Request> {
    Some(match action {
        Action::Create { name, version, blocks } => Request::Create {
            name: *name,
            version: *version,
            blocks: *blocks,
            stamp: Stamp(*b"01JAN80000000"),
        },
        Action::Extend { file, blocks } => Request::Extend {
            file: file.means(last)?,
            blocks: *blocks,
        },
        Action::Delete { file } => Request::Delete { file: file.means(last)? },
        Action::Enter { dir, name, version, file } => Request::Enter {
            dir: dir.means(last)?,
            name: *name,
            version: *version,
            file: file.means(last)?,
        },
        Action::LookUp { dir, name } => Request::LookUp {
            dir: dir.means(last)?,
            name: *name,
        },
        Action::Remove { dir, name } => Request::Remove {
            dir: dir.means(last)?,
            name: *name,
        },
        Action::Read { file, vbn } => Request::Read {
            file: file.means(last)?,
            vbn: *vbn,
        },
        Action::Write { file, vbn, block } => Request::Write {
            file: file.means(last)?,
            vbn: *vbn,
            block: block.clone(),
        },
        Action::View { .. } | Action::Bad => return None,
    })
}

struct Command {
    nth: u32,
    action: Action,
}

fn word(block: &Block, at: usize) -> u16 {
    u16::from_le_bytes([block.0[at], block.0[at + 1]])
}

fn set_word(block: &mut Block, at: usize, value: u16) {
    block.0[at..at + 2].copy_from_slice(&value.to_le_bytes());
}

fn sum(block: &Block) -> u16 {
    (0..255).fold(0u16, |sum, k| sum.wrapping_add(word(block, 2 * k)))
}

#[derive(Clone)]
struct Layout {
    index_lbn: usize,
    index_size: usize,
    bitmap: Vec<usize>,
    protection: u16,
    most: u16,
}

impl Layout {
    fn of(image: &[Block]) -> Layout {
        let home = &image[1];
        let index_size = word(home, 0) as usize;
        let index_lbn = (word(home, 2) as usize) << 16 | word(home, 4) as usize;
        let header = &image[index_lbn + index_size + 1];
        let bitmap: Vec<usize> = pointers(header)
            .flat_map(|(lbn, count)| lbn..lbn + count)
            .skip(1)
            .collect();
        Layout {
            index_lbn,
            index_size,
            bitmap,
            protection: word(home, 36),
            most: word(home, 6).min(16),
        }
    }

    fn place(&self, number: u16) -> usize {
        self.index_lbn + self.index_size + number as usize - 1
    }
}

fn pointers(header: &Block) -> impl Iterator<Item = (usize, usize)> + '_ {
    let map = 2 * header.0[1] as usize;
    (0..header.0[map + 8] as usize / 2).map(move |k| {
        let at = map + 10 + 4 * k;
        (
            (header.0[at] as usize) << 16 | word(header, at + 2) as usize,
            header.0[at + 1] as usize + 1,
        )
    })
}

/// The checks of a header of file `n`.
fn is_valid(header: &Block, n: u16) -> bool {
    let (ident, map) = (header.0[0] as usize, header.0[1] as usize);
    word(header, 510) == sum(header)
        && word(header, 2) == n
        && word(header, 6) == 257
        && ident >= 23
        && map >= ident + 23
        && map <= 250
        && header.0[2 * map + 8] % 2 == 0
        && header.0[2 * map + 8] <= header.0[2 * map + 9]
        && 2 * map + 10 + 2 * header.0[2 * map + 8] as usize <= 510
        && header.0[2 * map + 6] == 1
        && header.0[2 * map + 7] == 3
}

/// Changed blocks, of which the newest counts.
#[derive(Clone)]
struct Draft(Vec<(usize, Block)>);

impl Draft {
    fn block<'a>(&'a mut self, image: &[Block], lbn: usize) -> &'a mut Block {
        match self.0.iter().rposition(|change| change.0 == lbn) {
            Some(k) => &mut self.0[k].1,
            None => {
                self.0.push((lbn, image[lbn]));
                &mut self.0.last_mut().unwrap().1
            }
        }
    }

    fn put_bit(&mut self, image: &[Block], lbn: usize, bit: usize, value: bool) {
        let byte = &mut self.block(image, lbn).0[bit / 8];
        if value {
            *byte |= 1 << (bit % 8);
        } else {
            *byte &= !(1 << (bit % 8));
        }
    }

    fn apply(&self, image: &mut [Block]) {
        for (lbn, block) in &self.0 {
            image[*lbn] = *block;
        }
    }
}

fn bits(block: &Block, k: usize) -> u64 {
    u64::from_le_bytes(block.0[8 * k..8 * k + 8].try_into().unwrap())
}

fn count_set(block: &Block) -> u32 {
    (0..64).map(|k| bits(block, k).count_ones()).sum()
}

#[derive(Clone, Copy)]
enum Right {
    Read,
    Write,
    Extend,
    Delete,
}

/// The type word of a directory, DIR.
const DIRECTORY: u16 = 6778;

/// The header of a file, and its place.
fn find_header<'a>(image: &'a [Block], layout: &Layout, file: FileId) -> Result<(usize, &'a Block), Refusal> {
    if file.number == 0 || file.number > layout.most {
        return Err(Refusal::NoSuchFile);
    }
    let place = layout.place(file.number);
    let header = &image[place];
    if !is_valid(header, file.number) || word(header, 4) != file.sequence {
        return Err(Refusal::NoSuchFile);
    }
    Ok((place, header))
}

/// The header of a file that the user may use so, and its place; of a directory or not, where that is asked.
fn open<'a>(
    image: &'a [Block],
    layout: &Layout,
    who: Uic,
    file: FileId,
    right: Right,
    directory: Option<bool>,
) -> Result<(usize, &'a Block), Refusal> {
    let (place, header) = find_header(image, layout, file)?;
    if file.number < 6 && !matches!(right, Right::Read) {
        return Err(Refusal::Reserved);
    }
    let is_directory = word(header, 52) == DIRECTORY;
    match directory {
        Some(true) if !is_directory => return Err(Refusal::NotADirectory),
        Some(false) if is_directory => return Err(Refusal::IsDirectory),
        _ => {}
    }
    if (header.0[8], header.0[9]) != (who.member, who.group) || word(header, 10) >> (4 + right as u16) & 1 == 1 {
        return Err(Refusal::Denied);
    }
    Ok((place, header))
}

/// The LBN of a block of a file, counted from 1.
fn block_of(header: &Block, vbn: u32) -> Option<usize> {
    let mut left = (vbn as usize).checked_sub(1)?;
    for (lbn, count) in pointers(header) {
        if left < count {
            return Some(lbn + left);
        }
        left -= count;
    }
    None
}

fn read(image: &[Block], layout: &Layout, who: Uic, file: FileId, vbn: u32) -> Result<Answer, Refusal> {
    let (_, header) = open(image, layout, who, file, Right::Read, Some(false))?;
    let lbn = block_of(header, vbn).ok_or(Refusal::NoSuchBlock)?;
    Ok(Answer::Bytes(Arc::new(image[lbn])))
}

/// Where the names of a directory end, in bytes.
fn mark_of(header: &Block) -> usize {
    let block = (word(header, 22) as usize) << 16 | word(header, 24) as usize;
    match block {
        0 => 0,
        _ => 512 * (block - 1) + word(header, 26) as usize,
    }
}

/// Appends the pointers to these blocks, and makes the sum anew.
fn put_pointers(header: &mut Block, taken: &[usize]) {
    let mut used = header.0[100];
    let mut k = 0;
    while k < taken.len() {
        let first = taken[k];
        let mut many = 1;
        while k + many < taken.len() && taken[k + many] == first + many && many < 256 {
            many += 1;
        }
        let at = 102 + 2 * used as usize;
        header.0[at] = (first >> 16) as u8;
        header.0[at + 1] = (many - 1) as u8;
        set_word(header, at + 2, first as u16);
        used += 2;
        k += many;
    }
    header.0[100] = used;
    let check = sum(header);
    set_word(header, 510, check);
}

struct Prepared {
    entry: Entry,
    draft: Draft,
    counts: Vec<(usize, u32)>,
}

struct Volume {
    mounted: Vec<Block>,
    image: Vec<Block>,
    layout: Layout,
    entries: Vec<Entry>,
    limit: usize,
    counts: Vec<u32>,
}

impl Volume {
    fn new(mounted: Vec<Block>, limit: usize) -> Volume {
        let layout = Layout::of(&mounted);
        let counts = layout.bitmap.iter().map(|lbn| count_set(&mounted[*lbn])).collect();
        Volume {
            image: mounted.clone(),
            mounted,
            layout,
            entries: Vec::with_capacity(limit),
            limit,
            counts,
        }
    }

    fn free_numbers(&self) -> impl Iterator<Item = u16> + '_ {
        (6..=self.layout.most).filter(move |n| {
            let bit = *n as usize - 1;
            let block = &self.image[self.layout.index_lbn + bit / 4096];
            block.0[bit % 4096 / 8] >> (bit % 8) & 1 == 0 && word(&self.image[self.layout.place(*n)], 4) < 65535
        })
    }

    /// The lowest free blocks, by words.
    fn pick(&self, mut want: u32) -> Option<Vec<usize>> {
        let mut picked = Vec::with_capacity(want as usize);
        for (k, lbn) in self.layout.bitmap.iter().enumerate() {
            if want == 0 {
                break;
            }
            if self.counts[k] == 0 {
                continue;
            }
            for j in 0..64 {
                let mut word = bits(&self.image[*lbn], j);
                while word != 0 && want > 0 {
                    let block = 4096 * k + 64 * j + word.trailing_zeros() as usize;
                    if block >= self.image.len() {
                        break;
                    }
                    picked.push(block);
                    want -= 1;
                    word &= word - 1;
                }
            }
        }
        (want == 0).then_some(picked)
    }

    fn create(
        &self,
        who: Uic,
        name: Name,
        version: u16,
        blocks: u32,
        stamp: Stamp,
    ) -> Result<(Answer, Draft), Refusal> {
        let taken = self.pick(blocks).ok_or(Refusal::VolumeFull)?;
        let number = self.free_numbers().next().ok_or(Refusal::HeadersFull)?;
        let place = self.layout.place(number);
        let file = FileId {
            number,
            sequence: word(&self.image[place], 4) + 1,
        };
        let mut draft = Draft(Vec::new());
        let mut header = Block([0; 512]);
        header.0[0] = 23;
        header.0[1] = 46;
        set_word(&mut header, 2, file.number);
        set_word(&mut header, 4, file.sequence);
        set_word(&mut header, 6, 257);
        header.0[8] = who.member;
        header.0[9] = who.group;
        set_word(&mut header, 10, self.layout.protection);
        for (k, w) in name.words.into_iter().chain([name.ext, version, 1]).enumerate() {
            set_word(&mut header, 46 + 2 * k, w);
        }
        header.0[58..71].copy_from_slice(&stamp.0);
        header.0[71..84].copy_from_slice(&stamp.0);
        header.0[98] = 1;
        header.0[99] = 3;
        header.0[101] = 204;
        if name.ext == DIRECTORY {
            header.0[14] = 1;
            header.0[16] = 16;
            set_word(&mut header, 20, blocks as u16);
            set_word(&mut header, 24, 1);
        }
        put_pointers(&mut header, &taken);
        for lbn in &taken {
            draft.0.push((*lbn, Block([0; 512])));
        }
        draft.0.push((place, header));
        let bit = number as usize - 1;
        draft.put_bit(&self.image, self.layout.index_lbn + bit / 4096, bit % 4096, true);
        for lbn in taken {
            draft.put_bit(&self.image, self.layout.bitmap[lbn / 4096], lbn % 4096, false);
        }
        Ok((Answer::Created(file), draft))
    }

    /// The header of a file that the user may use so, and its place.
    fn open(&self, who: Uic, file: FileId, right: Right, directory: Option<bool>) -> Result<(usize, &Block), Refusal> {
        open(&self.image, &self.layout, who, file, right, directory)
    }

    fn extend(&self, who: Uic, file: FileId, blocks: u32) -> Result<(Answer, Draft), Refusal> {
        let (place, old) = self.open(who, file, Right::Extend, Some(false))?;
        let count: usize = pointers(old).map(|(_, many)| many).sum();
        let taken = self.pick(blocks).ok_or(Refusal::VolumeFull)?;
        let mut draft = Draft(Vec::new());
        for lbn in &taken {
            draft.0.push((*lbn, Block([0; 512])));
        }
        let mut header = *old;
        header.0[12] &= !0o200;
        put_pointers(&mut header, &taken);
        draft.0.push((place, header));
        for lbn in taken {
            draft.put_bit(&self.image, self.layout.bitmap[lbn / 4096], lbn % 4096, false);
        }
        Ok((Answer::Extended(count as u32 + blocks), draft))
    }

    fn delete(&self, who: Uic, file: FileId) -> Result<(Answer, Draft), Refusal> {
        let (place, old) = self.open(who, file, Right::Delete, None)?;
        let mut draft = Draft(Vec::new());
        let mut header = *old;
        set_word(&mut header, 2, 0);
        let check = sum(&header);
        set_word(&mut header, 510, check);
        draft.0.push((place, header));
        let bit = file.number as usize - 1;
        draft.put_bit(&self.image, self.layout.index_lbn + bit / 4096, bit % 4096, false);
        for (first, many) in pointers(old) {
            for lbn in first..first + many {
                if lbn / 4096 < self.layout.bitmap.len() {
                    draft.put_bit(&self.image, self.layout.bitmap[lbn / 4096], lbn % 4096, true);
                }
            }
        }
        Ok((Answer::Done, draft))
    }

    fn write(&self, who: Uic, file: FileId, vbn: u32, block: &Block) -> Result<(Answer, Draft), Refusal> {
        let (_, header) = self.open(who, file, Right::Write, Some(false))?;
        let lbn = block_of(header, vbn).ok_or(Refusal::NoSuchBlock)?;
        Ok((Answer::Done, Draft(vec![(lbn, *block)])))
    }

    /// The used entries of a directory: the place of each, with the block that it is in.
    fn entries<'a>(&'a self, header: &'a Block) -> impl Iterator<Item = (usize, usize, &'a [u8])> + 'a {
        let mark = mark_of(header);
        pointers(header)
            .flat_map(|(lbn, count)| lbn..lbn + count)
            .flat_map(move |lbn| (0..32).map(move |k| (lbn, k)))
            .take(mark / 16)
            .map(|(lbn, k)| (lbn, k, &self.image[lbn].0[16 * k..16 * k + 16]))
    }

    /// The entry of the highest version of a name.
    fn find(&self, header: &Block, name: &Name) -> Option<(usize, usize, FileId, u16)> {
        let key = name.bytes();
        let mut found: Option<(usize, usize, FileId, u16)> = None;
        for (lbn, k, entry) in self.entries(header) {
            if entry[6..14] == key && (entry[0], entry[1]) != (0, 0) {
                let version = u16::from_le_bytes([entry[14], entry[15]]);
                if found.is_none_or(|before| before.3 < version) {
                    let number = u16::from_le_bytes([entry[0], entry[1]]);
                    let sequence = u16::from_le_bytes([entry[2], entry[3]]);
                    found = Some((lbn, k, FileId { number, sequence }, version));
                }
            }
        }
        found
    }

    fn enter(&self, who: Uic, dir: FileId, name: &Name, version: Option<u16>, file: FileId) -> Result<(Answer, Draft), Refusal> {
        let (place, header) = find_header(&self.image, &self.layout, dir)?;
        find_header(&self.image, &self.layout, file)?;
        self.open(who, dir, Right::Write, Some(true))?;
        let found = self.find(header, name);
        let version = match (version, found) {
            (Some(version), Some(found)) if found.3 == version => return Err(Refusal::NameTaken),
            (Some(version), _) => version,
            (None, Some(found)) => found.3 + 1,
            (None, None) => 1,
        };
        let mut draft = Draft(Vec::new());
        let empty = self.entries(header).find(|(_, _, entry)| (entry[0], entry[1]) == (0, 0));
        let (lbn, k) = match empty {
            Some((lbn, k, _)) => (lbn, k),
            None => {
                let mark = mark_of(header);
                let lbn = block_of(header, mark as u32 / 512 + 1).ok_or(Refusal::VolumeFull)?;
                let mut marked = *header;
                let next = mark + 16;
                set_word(&mut marked, 24, (next / 512 + 1) as u16);
                set_word(&mut marked, 26, (next % 512) as u16);
                let check = sum(&marked);
                set_word(&mut marked, 510, check);
                draft.0.push((place, marked));
                (lbn, mark % 512 / 16)
            }
        };
        let at = 16 * k;
        let block = draft.block(&self.image, lbn);
        set_word(block, at, file.number);
        set_word(block, at + 2, file.sequence);
        set_word(block, at + 4, 0);
        block.0[at + 6..at + 14].copy_from_slice(&name.bytes());
        set_word(block, at + 14, version);
        Ok((Answer::Entered(version), draft))
    }

    fn remove(&self, who: Uic, dir: FileId, name: &Name) -> Result<(Answer, Draft), Refusal> {
        let (_, header) = self.open(who, dir, Right::Write, Some(true))?;
        let (lbn, k, file, version) = self.find(header, name).ok_or(Refusal::NoSuchName)?;
        let mut draft = Draft(Vec::new());
        draft.block(&self.image, lbn).0[16 * k..16 * k + 16].fill(0);
        Ok((Answer::Removed(file, version), draft))
    }

    fn look_up(&self, who: Uic, dir: FileId, name: &Name) -> Result<Answer, Refusal> {
        let (_, header) = self.open(who, dir, Right::Read, Some(true))?;
        let (_, _, file, version) = self.find(header, name).ok_or(Refusal::NoSuchName)?;
        Ok(Answer::Found(file, version))
    }

    fn prepare(&self, session: u16, nth: u32, who: Uic, request: &Request) -> Result<Prepared, Refusal> {
        if self.entries.len() == self.limit {
            return Err(Refusal::ListFull);
        }
        let (answer, draft) = match request {
            Request::Create {
                name,
                version,
                blocks,
                stamp,
            } => self.create(who, *name, *version, *blocks, *stamp)?,
            Request::Extend { file, blocks } => self.extend(who, *file, *blocks)?,
            Request::Delete { file } => self.delete(who, *file)?,
            Request::Enter { dir, name, version, file } => self.enter(who, *dir, name, *version, *file)?,
            Request::LookUp { dir, name } => (self.look_up(who, *dir, name)?, Draft(Vec::new())),
            Request::Remove { dir, name } => self.remove(who, *dir, name)?,
            Request::Read { file, vbn } => (read(&self.image, &self.layout, who, *file, *vbn)?, Draft(Vec::new())),
            Request::Write { file, vbn, block } => self.write(who, *file, *vbn, block)?,
        };
        let mut counts = Vec::new();
        let map = &self.layout.bitmap;
        for (lbn, block) in &draft.0 {
            // The bitmap is contiguous in these volumes.
            let k = lbn.wrapping_sub(map[0]);
            if map.get(k) == Some(lbn) {
                counts.push((k, count_set(block)));
            }
        }
        Ok(Prepared {
            entry: Entry {
                session,
                nth,
                who,
                request: request.clone(),
                answer,
            },
            draft,
            counts,
        })
    }

    fn apply(&mut self, prepared: Prepared) -> Answer {
        let answer = prepared.entry.answer.clone();
        self.entries.push(prepared.entry);
        prepared.draft.apply(&mut self.image);
        for (k, count) in prepared.counts {
            self.counts[k] = count;
        }
        answer
    }
}

struct Version {
    image: Vec<Block>,
    count: usize,
}

/// Two versions: the shown one and the other, to which a change goes first.
struct Shown {
    copies: [RwLock<Version>; 2],
    shown: AtomicUsize,
}

struct Desk {
    volume: Volume,
    shown: Option<Arc<Shown>>,
}

impl Desk {
    fn submit(&mut self, session: u16, nth: u32, who: Uic, request: &Request) -> Result<Answer, Refusal> {
        let prepared = self.volume.prepare(session, nth, who, request)?;
        let Some(shown) = &self.shown else {
            return Ok(self.volume.apply(prepared));
        };
        let draft = prepared.draft.clone();
        let answer = self.volume.apply(prepared);
        let count = self.volume.entries.len();
        let old = shown.shown.load(Ordering::Acquire);
        for which in [1 - old, old] {
            let mut copy = shown.copies[which].write().unwrap();
            draft.apply(&mut copy.image);
            copy.count = count;
            shown.shown.store(1 - old, Ordering::Release);
        }
        Ok(answer)
    }
}

impl Shown {
    /// What the shown version answers to a Read, without the desk's lock.
    fn view(&self, who: Uic, layout: &Layout, file: FileId, vbn: u32) -> Result<Answer, Refusal> {
        loop {
            let shown = self.shown.load(Ordering::Acquire);
            if let Ok(version) = self.copies[shown].try_read() {
                return read(&version.image, layout, who, file, vbn);
            }
        }
    }
}

fn code(character: u8) -> Option<u16> {
    match character {
        b'A'..=b'Z' => Some((character - b'A') as u16 + 1),
        b'$' => Some(27),
        b'0'..=b'9' => Some((character - b'0') as u16 + 30),
        _ => None,
    }
}

fn pack(text: &str, words: &mut [u16]) -> Option<()> {
    if text.len() > 3 * words.len() {
        return None;
    }
    for k in 0..3 * words.len() {
        let code = match text.as_bytes().get(k) {
            Some(character) => code(*character)?,
            None => 0,
        };
        words[k / 3] = words[k / 3] * 40 + code;
    }
    Some(())
}

/// A name, with its version where one is given.
fn parse_name(text: &str) -> Option<(Name, Option<u16>)> {
    let (text, version) = match text.split_once(';') {
        Some((text, version)) => (text, Some(version.parse().ok()?)),
        None => (text, None),
    };
    let (name, ext) = text.split_once('.')?;
    let mut words = [0; 3];
    let mut exts = [0; 1];
    pack(name, &mut words)?;
    pack(ext, &mut exts)?;
    Some((Name { words, ext: exts[0] }, version))
}

fn parse_id(text: &str) -> Option<Id> {
    if text == "$" {
        return Some(Id::Last);
    }
    let (number, sequence) = text.split_once(',')?;
    Some(Id::Given(FileId {
        number: number.parse().ok()?,
        sequence: sequence.parse().ok()?,
    }))
}

fn parse_block(text: &str) -> Option<Arc<Block>> {
    let mut block = Block([0; 512]);
    for (k, pair) in text.as_bytes().chunks(2).enumerate() {
        block.0[k] = u8::from_str_radix(std::str::from_utf8(pair).ok()?, 16).ok()?;
    }
    Some(Arc::new(block))
}

fn parse_line(line: &str) -> Option<Action> {
    let mut words = line.split(' ');
    let action = match words.next()? {
        "CREATE" => {
            let (name, version) = parse_name(words.next()?)?;
            Action::Create {
                name,
                version: version.unwrap_or(1),
                blocks: words.next()?.parse().ok()?,
            }
        }
        "EXTEND" => Action::Extend {
            file: parse_id(words.next()?)?,
            blocks: words.next()?.parse().ok()?,
        },
        "DELETE" => Action::Delete {
            file: parse_id(words.next()?)?,
        },
        "ENTER" => {
            let dir = parse_id(words.next()?)?;
            let (name, version) = parse_name(words.next()?)?;
            let file = parse_id(words.next()?)?;
            Action::Enter {
                dir,
                name,
                version,
                file,
            }
        }
        "LOOK" => Action::LookUp {
            dir: parse_id(words.next()?)?,
            name: parse_name(words.next()?)?.0,
        },
        "REMOVE" => Action::Remove {
            dir: parse_id(words.next()?)?,
            name: parse_name(words.next()?)?.0,
        },
        "READ" => Action::Read {
            file: parse_id(words.next()?)?,
            vbn: words.next()?.parse().ok()?,
        },
        "WRITE" => Action::Write {
            file: parse_id(words.next()?)?,
            vbn: words.next()?.parse().ok()?,
            block: parse_block(words.next()?)?,
        },
        "VIEW" if words.next()? == "READ" => Action::View {
            file: parse_id(words.next()?)?,
            vbn: words.next()?.parse().ok()?,
        },
        _ => return None,
    };
    words.next().is_none().then_some(action)
}

/// One script, command by command.
fn sit(desk: &Mutex<Desk>, shown: Option<&Shown>, layout: &Layout, session: u16, script: &[Command]) -> (Vec<Call>, Vec<Reply>) {
    let mut calls = Vec::with_capacity(script.len());
    let mut replies = Vec::with_capacity(script.len());
    let who = Uic { group: 1, member: 1 };
    let mut last = None;
    for command in script {
        if let Action::View { file, vbn } = &command.action {
            replies.push(match file.means(last) {
                Some(file) => match shown.unwrap().view(who, layout, file, *vbn) {
                    Ok(answer) => Reply::Got(answer),
                    Err(refusal) => Reply::No(refusal),
                },
                None => Reply::Bad,
            });
            continue;
        }
        let Some(request) = request_of(&command.action, last) else {
            replies.push(Reply::Bad);
            continue;
        };
        let result = desk.lock().unwrap().submit(session, command.nth, who, &request);
        match result {
            Ok(answer) => {
                match &answer {
                    Answer::Created(file) | Answer::Found(file, _) | Answer::Removed(file, _) => last = Some(*file),
                    _ => {}
                }
                calls.push(Call {
                    nth: command.nth,
                    who,
                    request,
                    answer: answer.clone(),
                });
                replies.push(Reply::Got(answer));
            }
            Err(refusal) => replies.push(Reply::No(refusal)),
        }
    }
    (calls, replies)
}

fn print_part(text: &mut String, word: u16) {
    for code in [word / 1600, word / 40 % 40, word % 40] {
        match code {
            0 => {}
            1..=26 => text.push((b'A' + code as u8 - 1) as char),
            27 => text.push('$'),
            _ => text.push((b'0' + code as u8 - 30) as char),
        }
    }
}

fn print_name(text: &mut String, name: &Name, version: u16) {
    use std::fmt::Write;
    for word in name.words {
        print_part(text, word);
    }
    text.push('.');
    print_part(text, name.ext);
    write!(text, ";{version}").unwrap();
}

fn print_block(text: &mut String, block: &Block) {
    let end = block.0.iter().rposition(|byte| *byte != 0).map_or(1, |k| k + 1);
    text.push_str("OK ");
    for byte in &block.0[..end] {
        for digit in [byte >> 4, byte & 15] {
            text.push(char::from_digit(digit as u32, 16).unwrap());
        }
    }
    text.push('\n');
}

/// The replies of one script, as text.
fn printed(commands: &[Command], replies: &[Reply]) -> String {
    use std::fmt::Write;
    let mut text = String::new();
    for (command, reply) in commands.iter().zip(replies) {
        match (reply, &command.action) {
            (Reply::Got(Answer::Created(file)), _) => writeln!(text, "OK {},{}", file.number, file.sequence).unwrap(),
            (Reply::Got(Answer::Extended(count)), _) => writeln!(text, "OK {count}").unwrap(),
            (Reply::Got(Answer::Entered(version)), Action::Enter { name, .. }) => {
                text.push_str("OK ");
                print_name(&mut text, name, *version);
                text.push('\n');
            }
            (
                Reply::Got(Answer::Found(file, version) | Answer::Removed(file, version)),
                Action::LookUp { name, .. } | Action::Remove { name, .. },
            ) => {
                write!(text, "OK {},{} ", file.number, file.sequence).unwrap();
                print_name(&mut text, name, *version);
                text.push('\n');
            }
            (Reply::Got(Answer::Bytes(block)), _) => print_block(&mut text, block),
            (Reply::Got(_), _) => text.push_str("OK\n"),
            (Reply::No(refusal), _) => writeln!(text, "NO {}", *refusal as u16).unwrap(),
            (Reply::Bad, _) => writeln!(text, "BAD {}", command.nth).unwrap(),
        }
    }
    text
}

fn main() {
    let words: Vec<String> = std::env::args().collect();
    let scripts: Vec<Vec<Command>> = words[2..]
        .iter()
        .map(|file| {
            let text = std::fs::read_to_string(file).unwrap();
            let lines = text.lines().enumerate();
            lines
                .map(|(k, line)| Command {
                    nth: k as u32 + 1,
                    action: parse_line(line).unwrap_or(Action::Bad),
                })
                .collect()
        })
        .collect();
    let bytes = std::fs::read(&words[1]).unwrap();
    let image: Vec<Block> = bytes
        .chunks_exact(512)
        .map(|block| Block(block.try_into().unwrap()))
        .collect();
    let volume = Volume::new(image, 65536);
    let copy = || {
        RwLock::new(Version {
            image: volume.image.clone(),
            count: 0,
        })
    };
    let looks = scripts.iter().flatten().any(|command| matches!(command.action, Action::View { .. }));
    let shown = looks.then(|| {
        Arc::new(Shown {
            copies: [copy(), copy()],
            shown: AtomicUsize::new(0),
        })
    });
    let layout = volume.layout.clone();
    let desk = Mutex::new(Desk {
        volume,
        shown: shown.clone(),
    });
    let outcomes: Vec<(Vec<Call>, String)> = std::thread::scope(|scope| {
        let sessions: Vec<_> = scripts
            .iter()
            .enumerate()
            .map(|(k, script)| {
                let (desk, shown, layout) = (&desk, shown.as_deref(), &layout);
                scope.spawn(move || {
                    let (calls, replies) = sit(desk, shown, layout, k as u16 + 1, script);
                    (calls, printed(script, &replies))
                })
            })
            .collect();
        sessions.into_iter().map(|session| session.join().unwrap()).collect()
    });
    let volume = desk.into_inner().unwrap().volume;
    let settled = outcomes.iter().enumerate().all(|(k, (calls, _))| {
        let own = || volume.entries.iter().filter(|entry| entry.session == k as u16 + 1);
        own().count() == calls.len()
            && own().zip(calls).all(|(entry, call)| {
                (entry.nth, entry.who) == (call.nth, call.who) && entry.request == call.request && entry.answer == call.answer
            })
    });
    assert!(settled && volume.mounted.len() == volume.image.len());
    let mut text = String::new();
    for (k, (_, replies)) in outcomes.iter().enumerate() {
        text.push_str(&format!("session {}\n", k + 1));
        text.push_str(replies);
    }
    let free: u32 = volume.counts.iter().sum();
    let numbers = volume.free_numbers().count();
    text.push_str(&format!(
        "list {}\nfree {free}\nnumbers {numbers}\n",
        volume.entries.len()
    ));
    std::io::stdout().write_all(text.as_bytes()).unwrap();
}
