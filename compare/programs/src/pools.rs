//! Made constant pools: the class-file bytes for the crate, and the table of tags for us. Every entry holds its own index
//! in a name or a number, so that what the crate resolved tells the index.
use cafebabe::visible::Pool;

pub struct MadePool {
    pub name: &'static str,
    /// From the count on.
    bytes: Vec<u8>,
    pub tags: Vec<u8>,
}

/// A class version in which every kind of entry may stand.
const MAJOR: u16 = 61;

impl MadePool {
    /// The crate's pool. It ties itself to the codes it decodes, so it is read anew for each batch of them.
    pub fn read(&self) -> Pool<'_> {
        let pool = Pool::read(&self.bytes, MAJOR).map_err(|e| e.to_string()).unwrap();
        assert_eq!(pool.len(), self.tags.len());
        pool
    }
}

/// A pool as it grows; an entry is named by the two bytes of its index.
struct Maker {
    body: Vec<u8>,
    tags: Vec<u8>,
}

impl Maker {
    fn next(&self) -> usize {
        self.tags.len()
    }

    fn entry(&mut self, tag: u8, bytes: &[u8]) -> [u8; 2] {
        let index = self.next() as u16;
        self.tags.push(tag);
        self.body.push(tag);
        self.body.extend_from_slice(bytes);
        // A long and a double take a second slot, which is never used.
        if tag == 5 || tag == 6 {
            self.tags.push(0);
        }
        index.to_be_bytes()
    }

    fn utf8(&mut self, text: &str) -> [u8; 2] {
        let length = (text.len() as u16).to_be_bytes();
        self.entry(1, &[&length, text.as_bytes()].concat())
    }

    /// An entry that holds one text.
    fn named(&mut self, tag: u8, text: &str) -> [u8; 2] {
        let text = self.utf8(text);
        self.entry(tag, &text)
    }

    fn name_and_type(&mut self, name: &str, descriptor: &str) -> [u8; 2] {
        let (name, descriptor) = (self.utf8(name), self.utf8(descriptor));
        self.entry(12, &[name, descriptor].concat())
    }

    /// Every third class is an array.
    fn class(&mut self) -> [u8; 2] {
        let own = self.next() + 1;
        self.named(7, &if own % 3 == 0 { format!("[[Lc{own};") } else { format!("c{own}") })
    }

    fn member(&mut self, tag: u8) -> [u8; 2] {
        let own = self.next() + 5;
        let class = self.class();
        let member = self.name_and_type(&format!("m{own}"), if tag == 9 { "I" } else { "()V" });
        self.entry(tag, &[class, member].concat())
    }

    fn dynamic(&mut self, tag: u8) -> [u8; 2] {
        let own = self.next() + 3;
        let member = self.name_and_type("d", if tag == 17 { "I" } else { "()V" });
        self.entry(tag, &[(own as u16).to_be_bytes(), member].concat())
    }

    /// One entry of a tag, after what it needs.
    fn add(&mut self, tag: u8) {
        let here = self.next();
        match tag {
            1 => self.utf8("u"),
            3 => self.entry(3, &(here as i32).to_be_bytes()),
            4 => self.entry(4, &(here as f32).to_be_bytes()),
            5 => self.entry(5, &(here as i64).to_be_bytes()),
            6 => self.entry(6, &(here as f64).to_be_bytes()),
            7 => self.class(),
            9..=11 => self.member(tag),
            12 => self.name_and_type("n", "I"),
            15 => {
                // A handle of kind 5, that of a virtual method.
                let [high, low] = self.member(10);
                self.entry(15, &[5, high, low])
            }
            16 => self.named(16, &format!("(Lt{};)V", here + 1)),
            17 | 18 => self.dynamic(tag),
            // A string, a module or a package.
            _ => self.named(tag, &format!("s{}", here + 1)),
        };
    }

    fn done(self, name: &'static str) -> MadePool {
        let mut bytes = (self.tags.len() as u16).to_be_bytes().to_vec();
        bytes.extend_from_slice(&self.body);
        MadePool { name, bytes, tags: self.tags }
    }
}

/// Every tag of JVMS 4.4.
const TAGS: [u8; 17] = [1, 3, 4, 5, 6, 7, 8, 9, 10, 11, 12, 15, 16, 17, 18, 19, 20];

fn maker() -> Maker {
    Maker { body: vec![], tags: vec![0] }
}

fn of(name: &'static str, tags: &[u8]) -> MadePool {
    let mut made = maker();
    tags.iter().for_each(|tag| made.add(*tag));
    made.done(name)
}

/// One of each kind, and what they need.
pub fn each() -> MadePool {
    of("each kind", &TAGS)
}

/// Exactly 4,096 with index 0, every kind again and again.
fn full() -> MadePool {
    let mut made = maker();
    for tag in TAGS.iter().cycle() {
        if made.next() > 4080 {
            break;
        }
        made.add(*tag);
    }
    while made.next() < 4096 {
        made.add(3);
    }
    made.done("4,096 entries")
}

pub fn all() -> [MadePool; 4] {
    // A long takes two slots, the second of them unused: here that is the last.
    [each(), full(), of("a long last", &[7, 9, 10, 11, 18, 5]), of("no entry", &[])]
}
