//! Requests and answers: their numbers, their bytes, their text and the digest, as compare/README.md has them.

/// A kind of request by its number, and what it carries.
#[derive(Clone, Copy, PartialEq, Debug)]
pub struct Request {
    pub kind: u64,
    pub args: [u64; 4],
}

pub const NOTHING: u64 = 0;
pub const LEND: u64 = 1;
pub const SPARE: u64 = 2;
pub const RECORD: u64 = 3;
pub const DIGESTS: u64 = 4;
pub const DIGEST: u64 = 5;
pub const SHOW: u64 = 6;
pub const WORD: u64 = 8;
pub const DELTA: u64 = 9;
pub const SPARE_WORD: u64 = 10;
pub const SPARE_DELTA: u64 = 11;
pub const TABLE: u64 = 16;
pub const CLEAR: u64 = 17;
pub const INSERT: u64 = 18;
pub const FIND: u64 = 19;
pub const REMOVE: u64 = 20;
pub const LEN: u64 = 21;
pub const IS_EMPTY: u64 = 22;
pub const CAPACITY: u64 = 23;
pub const CONTAINS_KEY: u64 = 24;
pub const GET_KEY_VALUE: u64 = 25;
pub const HASH: u64 = 26;
pub const CHECK: u64 = 27;
pub const TAKE: u64 = 32;
pub const COPY: u64 = 33;
pub const CELL: u64 = 34;
pub const CHANGE: u64 = 35;
pub const CURSOR: u64 = 64;
pub const STEP: u64 = 65;
pub const SET: u64 = 66;
pub const ENTRY: u64 = 67;
pub const FORGE_OCCUPIED: u64 = 68;
pub const FORGE_VACANT: u64 = 69;
pub const ENTRY_KEY: u64 = 70;
pub const ENTRY_GET: u64 = 71;
pub const ENTRY_REPLACE: u64 = 72;
pub const ENTRY_REMOVE: u64 = 73;
pub const REMOVE_ENTRY: u64 = 74;
pub const ENTRY_INSERT: u64 = 75;
pub const OR_INSERT: u64 = 76;
pub const INSERT_ENTRY: u64 = 77;
pub const MOVE: u64 = 48;
pub const MOVE_BACK: u64 = 49;
pub const HALVES: u64 = 50;
pub const CLEAR_HALVES: u64 = 51;
pub const IN_USE: u64 = 52;
pub const GROW: u64 = 53;
pub const GROW_FIND: u64 = 54;
pub const GROW_REMOVE: u64 = 55;
pub const PARTS: u64 = 56;
pub const GROW_CHECK: u64 = 57;

/// Number, word, and what is carried: n a number, h a hasher, s a switch.
pub const KINDS: &[(u64, &str, &str)] = &[
    (NOTHING, "nothing", ""),
    (LEND, "lend", "nn"),
    (SPARE, "spare", "nn"),
    (RECORD, "record", "hn"),
    (DIGESTS, "digests", "s"),
    (DIGEST, "digest", ""),
    (SHOW, "show", ""),
    (WORD, "word", "nn"),
    (DELTA, "delta", "nn"),
    (SPARE_WORD, "spare_word", "nn"),
    (SPARE_DELTA, "spare_delta", "nn"),
    (TABLE, "table", "nh"),
    (CLEAR, "clear", "h"),
    (INSERT, "insert", "nn"),
    (FIND, "find", "n"),
    (REMOVE, "remove", "n"),
    (LEN, "len", ""),
    (IS_EMPTY, "is_empty", ""),
    (CAPACITY, "capacity", ""),
    (CONTAINS_KEY, "contains_key", "n"),
    (GET_KEY_VALUE, "get_key_value", "n"),
    (HASH, "hash", "n"),
    (CHECK, "check", ""),
    (TAKE, "take", "n"),
    (COPY, "copy", "nn"),
    (CELL, "cell", "nn"),
    (CHANGE, "change", "nnnn"),
    (CURSOR, "cursor", "n"),
    (STEP, "step", ""),
    (SET, "set", "nn"),
    (ENTRY, "entry", "n"),
    (FORGE_OCCUPIED, "forge_occupied", "nnn"),
    (FORGE_VACANT, "forge_vacant", "nn"),
    (ENTRY_KEY, "entry_key", ""),
    (ENTRY_GET, "entry_get", ""),
    (ENTRY_REPLACE, "entry_replace", "n"),
    (ENTRY_REMOVE, "entry_remove", ""),
    (REMOVE_ENTRY, "remove_entry", ""),
    (ENTRY_INSERT, "entry_insert", "n"),
    (OR_INSERT, "or_insert", "n"),
    (INSERT_ENTRY, "insert_entry", "n"),
    (MOVE, "move", ""),
    (MOVE_BACK, "move_back", ""),
    (HALVES, "halves", "nnh"),
    (CLEAR_HALVES, "clear_halves", "nh"),
    (IN_USE, "in_use", "nn"),
    (GROW, "grow", "nn"),
    (GROW_FIND, "grow_find", "n"),
    (GROW_REMOVE, "grow_remove", "n"),
    (PARTS, "parts", ""),
    (GROW_CHECK, "grow_check", ""),
];

/// What was said, by number: 1 to 9 are document 01's refusals, 0 is a request that no one knows.
pub const SAID: &[(u64, &str)] = &[
    (0, "no such request"),
    (1, "refused 1 Shape"),
    (2, "refused 2 Zero hash"),
    (3, "refused 3 Null"),
    (4, "refused 4 Full"),
    (5, "refused 5 Broken"),
    (6, "refused 6 NoRoom"),
    (9, "refused 9 Unsound"),
    (16, "done"),
    (17, "New"),
    (18, "Replaced"),
    (19, "Revived"),
    (20, "Found"),
    (21, "Absent"),
    (22, "Removed"),
    (23, "Cleared"),
    (24, "Number"),
    (25, "yes"),
    (26, "no"),
    (27, "Pair"),
    (28, "Taken"),
    (29, "Put"),
    (30, "Cell"),
    (31, "Sound"),
    (7, "refused 7 Stale"),
    (64, "Next"),
    (65, "End"),
    (66, "Occupied"),
    (67, "Vacant"),
    (40, "Moved"),
    (41, "Parts"),
];

pub fn said(number: u64) -> &'static str {
    SAID.iter().find(|s| s.0 == number).map_or("?", |s| s.1)
}

/// The number of what was said.
pub fn number(said: &str) -> u64 {
    SAID.iter().find(|s| s.1 == said).expect(said).0
}

#[derive(Clone, Copy, PartialEq, Debug, Default)]
pub struct Answer {
    pub number: u64,
    pub values: [u64; 3],
    pub looked: u64,
    pub hasher: u64,
    pub live: u64,
    pub capacity: u64,
    pub digest: u64,
}

impl Request {
    pub fn new(kind: u64, args: &[u64]) -> Request {
        let mut all = [0; 4];
        all[..args.len()].copy_from_slice(args);
        Request { kind, args: all }
    }

    /// The request that a line is. None where it is not one, as a note.
    pub fn from_text(line: &str) -> Option<Request> {
        let mut words = line.split(' ').filter(|word| !word.is_empty());
        let name = words.next()?;
        let kind = KINDS.iter().find(|k| k.1 == name)?.0;
        let args: Vec<u64> = words.map(number_of).collect::<Option<_>>()?;
        (args.len() <= 4).then(|| Request::new(kind, &args))
    }

    pub fn bytes(&self) -> [u8; 40] {
        let mut bytes = [0; 40];
        bytes[..8].copy_from_slice(&self.kind.to_le_bytes());
        for (i, x) in self.args.iter().enumerate() {
            bytes[8 * i + 8..8 * i + 16].copy_from_slice(&x.to_le_bytes());
        }
        bytes
    }

    pub fn text(&self) -> String {
        let Some((_, word, carried)) = KINDS.iter().find(|k| k.0 == self.kind) else {
            return "nothing".to_string();
        };
        let mut text = word.to_string();
        for (c, x) in carried.chars().zip(self.args) {
            text += " ";
            text += &match c {
                'h' => ["0", "simple", "murmur", "fnv"].get(x as usize).map_or(x.to_string(), |n| n.to_string()),
                's' => ["off", "on"].get(x as usize).map_or(x.to_string(), |n| n.to_string()),
                _ => number_text(x),
            };
        }
        text
    }
}

/// The number that a word of a line is.
fn number_of(word: &str) -> Option<u64> {
    match word {
        "off" => Some(0),
        "simple" | "on" => Some(1),
        "murmur" => Some(2),
        "fnv" => Some(3),
        "null" => Some(u64::MAX - 1),
        _ => match word.strip_prefix('-') {
            Some(digits) => digits.parse::<u64>().ok().map(u64::wrapping_neg),
            None => word.parse().ok(),
        },
    }
}

/// A number that is near 2^64 is written as its distance from it.
fn number_text(x: u64) -> String {
    match x {
        0xffff_ffff_ffff_fffe => "null".to_string(),
        x if x > u64::MAX - 1_000_000_000 => format!("-{}", x.wrapping_neg()),
        x => x.to_string(),
    }
}

impl Answer {
    pub fn from_bytes(bytes: &[u8]) -> Answer {
        let n = |i: usize| u64::from_le_bytes(bytes[8 * i..8 * i + 8].try_into().unwrap());
        Answer {
            number: n(0),
            values: [n(1), n(2), n(3)],
            looked: n(4),
            hasher: n(5),
            live: n(6),
            capacity: n(7),
            digest: n(8),
        }
    }

    pub fn text(&self, kind: u64) -> String {
        let mut text = said(self.number).to_string();
        for value in &self.values[..self.carries()] {
            text += &format!(" {value}");
        }
        if kind == TAKE {
            text += &format!(", bucket {:016x}", self.values[0]);
        }
        if [INSERT, FIND, REMOVE, GROW, GROW_FIND, GROW_REMOVE].contains(&kind) {
            text += &format!(", looked {}", self.looked);
        }
        text += &self.place(kind);
        text += &format!(", live {}", self.live);
        if self.digest != 0 {
            text += &format!(", table {:016x}", self.digest);
        }
        text
    }

    /// What the text says of a growing table: the moves of an insert, the parts by their digests, the size and the half.
    fn place(&self, kind: u64) -> String {
        let [first, second, half] = self.values;
        let own = match kind {
            GROW => format!(", moves {second}"),
            PARTS => format!(", words {first:016x}, deltas {second:016x}"),
            HALVES..=GROW_CHECK => String::new(),
            _ => return String::new(),
        };
        format!("{own}, size {} {}", self.capacity, if half == 0 { "lower" } else { "upper" })
    }

    /// How many values the text of this answer has.
    fn carries(&self) -> usize {
        match said(self.number) {
            "refused 4 Full" | "Replaced" | "Found" | "Removed" | "Number" => 1,
            "Pair" => 2,
            "Cell" => 3,
            "End" | "Vacant" => 1,
            "Occupied" => 2,
            "Next" => 3,
            _ => 0,
        }
    }
}

/// Takes one number into a digest.
pub fn mix(digest: u64, x: u64) -> u64 {
    let product = (digest ^ x).wrapping_mul(0x9e37_79b9_7f4a_7c15);
    product ^ (product >> 32)
}

/// A digest of slices of words and bytes, one after the other, each with its length.
pub struct Digest(pub u64);

impl Digest {
    pub fn new(hasher: u64, live: u64) -> Digest {
        Digest(mix(mix(1, hasher), live))
    }

    pub fn words(&mut self, words: &[u64]) {
        self.0 = mix(self.0, words.len() as u64);
        for x in words {
            self.0 = mix(self.0, *x);
        }
    }

    pub fn bytes(&mut self, bytes: &[u8]) {
        self.0 = mix(self.0, bytes.len() as u64);
        for x in bytes {
            self.0 = mix(self.0, *x as u64);
        }
    }
}
