//! Real class files: their pools, the codes of their methods, and their names and descriptors.
use cafebabe::visible::Pool;
use std::ops::Range;
use std::path::{Path, PathBuf};

/// The most entries of a pool table.
const POOL_LIMIT: usize = 4_096;

pub struct Class {
    bytes: Vec<u8>,
    pub tags: Vec<u8>,
    /// Where each entry of the pool starts; an unused slot starts nowhere.
    starts: Vec<usize>,
    codes: Vec<Range<usize>>,
    /// Name and descriptor of each field and method, as indices of the pool.
    members: Vec<(usize, usize)>,
}

fn u2(bytes: &[u8], at: usize) -> usize {
    u16::from_be_bytes([bytes[at], bytes[at + 1]]) as usize
}

fn u4(bytes: &[u8], at: usize) -> usize {
    u2(bytes, at) << 16 | u2(bytes, at + 2)
}

impl Class {
    fn read(path: &Path) -> Option<Class> {
        let bytes = std::fs::read(path).ok()?;
        let mut class = Class { bytes, tags: vec![0], starts: vec![0], codes: vec![], members: vec![] };
        let end = class.read_pool();
        class.read_members(end);
        Some(class)
    }

    /// JVMS 4.4: the tags; where the pool ends.
    fn read_pool(&mut self) -> usize {
        let mut at = 10;
        while self.tags.len() < u2(&self.bytes, 8) {
            let tag = self.bytes[at];
            self.tags.push(tag);
            self.starts.push(at);
            at += match tag {
                1 => 3 + u2(&self.bytes, at + 1),
                5 | 6 => 9,
                7 | 8 | 16 | 19 | 20 => 3,
                15 => 4,
                _ => 5,
            };
            if tag == 5 || tag == 6 {
                self.tags.push(0);
                self.starts.push(0);
            }
        }
        at
    }

    /// JVMS 4.1, 4.5 to 4.7: the fields and the methods with their codes.
    fn read_members(&mut self, pool_end: usize) {
        let interfaces = pool_end + 6;
        let mut at = interfaces + 2 + 2 * u2(&self.bytes, interfaces);
        for _ in ["fields", "methods"] {
            let members = u2(&self.bytes, at);
            at += 2;
            for _ in 0..members {
                self.members.push((u2(&self.bytes, at + 2), u2(&self.bytes, at + 4)));
                at = self.read_attributes(at + 6);
            }
        }
    }

    /// The code among a member's attributes; where they end. A field has none.
    fn read_attributes(&mut self, start: usize) -> usize {
        let mut at = start + 2;
        for _ in 0..u2(&self.bytes, start) {
            if self.text(u2(&self.bytes, at)) == b"Code" {
                self.codes.push(at + 14..at + 14 + u4(&self.bytes, at + 10));
            }
            at += 6 + u4(&self.bytes, at + 2);
        }
        at
    }

    fn text(&self, index: usize) -> &[u8] {
        let start = self.starts[index];
        &self.bytes[start + 3..start + 3 + u2(&self.bytes, start + 1)]
    }

    /// The crate's pool, if it can read it and ours has a table for it.
    pub fn pool(&self) -> Option<Pool<'_>> {
        let is_small = self.tags.len() <= POOL_LIMIT;
        is_small.then(|| Pool::read(&self.bytes[8..], u2(&self.bytes, 6) as u16).ok())?
    }

    pub fn codes(&self) -> impl Iterator<Item = &[u8]> {
        self.codes.iter().map(|code| &self.bytes[code.clone()])
    }

    /// Name and descriptor of each field and method, and of each NameAndType.
    pub fn members(&self) -> impl Iterator<Item = (&[u8], &[u8])> {
        let named = (1..self.tags.len()).filter(|i| self.tags[*i] == 12).map(|i| {
            let start = self.starts[i];
            (u2(&self.bytes, start + 1), u2(&self.bytes, start + 3))
        });
        self.members.iter().copied().chain(named).map(|(name, descriptor)| (self.text(name), self.text(descriptor)))
    }

    /// The text of each Class, MethodType, Module and Package.
    pub fn named(&self) -> impl Iterator<Item = &[u8]> {
        let named = (1..self.tags.len()).filter(|i| matches!(self.tags[*i], 7 | 16 | 19 | 20));
        named.map(|i| self.text(u2(&self.bytes, self.starts[i] + 1)))
    }
}

fn class_files(folder: &Path, found: &mut Vec<PathBuf>) {
    let mut paths: Vec<PathBuf> = std::fs::read_dir(folder).unwrap().map(|entry| entry.unwrap().path()).collect();
    paths.sort();
    for path in paths {
        if path.is_dir() {
            class_files(&path, found);
        } else if path.extension().is_some_and(|extension| extension == "class") {
            found.push(path);
        }
    }
}

/// Every file NAME.class of a folder, in one order.
pub fn all(folder: &str) -> Vec<Class> {
    let mut paths = vec![];
    class_files(Path::new(folder), &mut paths);
    paths.iter().filter_map(|path| Class::read(path)).collect()
}
