//! Texts of the listing's language (document 02, W8): written at random, at and past each limit, and damaged ones.

use crate::random::Random;

/// How many of each a text has at most.
#[derive(Clone, Copy)]
pub struct Size {
    pub places: usize,
    pub agents: usize,
    pub actions: usize,
}

/// A cell holds no more.
const FULL: Size = Size { places: 63, agents: 64, actions: 16 };

/// A text that is written part by part: what is left to write, and how: the names, how many of a hundred parts stand in the place written
/// last, how many of a hundred places have keys, and how many of a hundred with plain keys have them written.
struct Writer {
    text: String,
    places: usize,
    agents: usize,
    actions: usize,
    names: Vec<u16>,
    inward: usize,
    keyed: usize,
    spelled: usize,
}

/// A text of the language that fits a cell, parts in any order, keys written or left off.
pub fn good(random: &mut Random) -> Vec<u8> {
    let most = |random: &mut Random, most: usize| match random.below(20) {
        0..=12 => random.below(7),
        13..=16 => random.below(17),
        17..=18 => random.below(most + 1),
        _ => most,
    };
    let size = Size { places: most(random, FULL.places), agents: most(random, FULL.agents), actions: random.pick(&[1, 2, 3, 16]) };
    written(random, size)
}

/// A text of the language with 60 to 63 places and few agents.
pub fn crowded(random: &mut Random) -> Vec<u8> {
    let size = Size { places: 60 + random.below(4), agents: 2 + random.below(8), actions: random.pick(&[3, 6, 16]) };
    written(random, size)
}

/// A text of the language, or a damaged one.
pub fn nearly_good(random: &mut Random) -> Vec<u8> {
    let text = good(random);
    if random.percent(50) {
        text
    } else {
        damaged(random, &text)
    }
}

/// A text of the language with about as many places, agents or actions as fit, or more of any of them.
pub fn nearly_full(random: &mut Random) -> Vec<u8> {
    let about = |random: &mut Random, most: usize| if random.percent(50) { random.below(4) } else { most - 1 + random.below(4) };
    let size = Size { places: about(random, FULL.places), agents: about(random, FULL.agents), actions: 1 + about(random, FULL.actions) };
    written(random, size)
}

/// A text with so many places and agents, of so many actions at most; nested anyhow.
fn written(random: &mut Random, size: Size) -> Vec<u8> {
    let names = (0..1 + random.below(4)).map(|_| name(random)).collect();
    let mut writer = Writer {
        text: String::new(),
        places: size.places,
        agents: size.agents,
        actions: size.actions,
        names,
        inward: random.pick(&[5, 50, 95]),
        keyed: random.pick(&[0, 30, 100]),
        spelled: random.pick(&[0, 50]),
    };
    writer.write(random);
    writer.text.into_bytes()
}

/// A name or an action's number: small, at a limit of its digits, or any.
fn name(random: &mut Random) -> u16 {
    match random.below(4) {
        0..=1 => 1 + random.below(12) as u16,
        2 => random.pick(&[9, 10, 99, 100, 999, 1_000, 9_999, 10_000, 65_529, 65_530, 65_534, 65_535]),
        _ => 1 + random.below(65_535) as u16,
    }
}

impl Writer {
    /// Parts until nothing is left to write, then the brackets that are still open.
    fn write(&mut self, random: &mut Random) {
        let (mut open, mut first) = (0, true);
        while self.places + self.agents > 0 {
            while open > 0 && !random.percent(self.inward) {
                self.text.push(']');
                (open, first) = (open - 1, false);
            }
            if !first {
                self.text += " | ";
            }
            if random.below(self.places + self.agents) < self.places {
                self.place(random);
                (open, first) = (open + 1, true);
            } else {
                self.agent(random);
                first = false;
            }
        }
        self.text += &"]".repeat(open);
        if self.text.is_empty() {
            self.text.push('0');
        }
    }

    /// The start of a place.
    fn place(&mut self, random: &mut Random) {
        self.places -= 1;
        let name = random.pick(&self.names);
        let mut keys = [name; 3];
        if random.percent(self.keyed) {
            keys = [(); 3].map(|()| if random.percent(20) { 0 } else { random.pick(&self.names) });
        }
        self.text += &name.to_string();
        if keys != [name; 3] || random.percent(self.spelled) {
            keys.iter().for_each(|key| self.text += &format!("/{key}"));
        }
        self.text.push('[');
    }

    /// An agent.
    fn agent(&mut self, random: &mut Random) {
        self.agents -= 1;
        let count = if random.percent(50) { self.actions } else { 1 + random.below(self.actions) };
        let actions: Vec<String> =
            (0..count).map(|_| format!("{} {}", random.pick(&["enter", "exit", "open", "release"]), random.pick(&self.names))).collect();
        self.text += &actions.join(".");
    }
}

/// Texts at a limit and past it: places, agents and actions, side by side, in each other, and anyhow.
pub fn limits(random: &mut Random) -> Vec<Vec<u8>> {
    let side_by_side = |part: &str, count: usize| vec![part; count].join(" | ");
    let nested = |count: usize, inner: &str| format!("{}{inner}{}", "7[".repeat(count), "]".repeat(count));
    let row = |count: usize| vec!["exit 65535"; count].join(".");
    let mut texts = Vec::new();
    for count in [62, 63, 64, 65, 127, 128, 255, 256, 257, 300] {
        texts.extend([
            side_by_side("9[]", count),
            nested(count, ""),
            side_by_side("open 9", count),
            nested(3, &side_by_side("open 9", count)),
        ]);
        texts.push(nested(count, &side_by_side("open 9", 64)));
        texts.push(format!("{} | {}", nested(count, "open 9"), side_by_side("9/9/9/9[enter 9]", 2)));
    }
    for count in [15, 16, 17, 18, 32, 255, 256, 257] {
        texts.extend([row(count), side_by_side(&row(count), 2), nested(63, &row(count)), format!("{} | {} | 7[]", row(16), row(count))]);
    }
    texts.push(format!("{} | {}", side_by_side(&row(16), 64), side_by_side("65535/65535/65535/65535[]", 64)));
    let mut texts: Vec<Vec<u8>> = texts.into_iter().map(String::into_bytes).collect();
    for (places, agents, actions) in
        [(63, 64, 16), (63, 64, 1), (64, 64, 16), (63, 65, 16), (63, 64, 17), (63, 0, 1), (0, 64, 16), (0, 65, 2)]
    {
        texts.extend((0..4).map(|_| written(random, Size { places, agents, actions })));
    }
    texts
}

/// The longest text that is read.
pub fn longest() -> Vec<u8> {
    let row = vec!["release 65535"; 16].join(".");
    let places = vec!["65535/10000/65534/65535[]"; 63].join(" | ");
    format!("{} | {places}", vec![row; 64].join(" | ")).into_bytes()
}

/// Very deep nesting: judged to its end, closed, not closed, closed once too often, and with a fault inside.
pub fn deep(depth: usize) -> Vec<Vec<u8>> {
    let (opened, closed) = ("12[".repeat(depth), "]".repeat(depth));
    [
        format!("{opened}{closed}"),
        opened.clone(),
        format!("{opened}0{closed}"),
        format!("{opened}{closed}]"),
        format!("{opened}open 1{closed} "),
    ]
    .map(String::into_bytes)
    .to_vec()
}

/// A text with one fault, or several: a byte changed, dropped, doubled or put in, two swapped, a piece doubled or cut out, or the end cut off.
pub fn damaged(random: &mut Random, text: &[u8]) -> Vec<u8> {
    const BYTES: &[u8] = b"0123456789[]/| .enterxioplas\n\r\0";
    let mut text = text.to_vec();
    for _ in 0..random.pick(&[1, 1, 1, 2, 3]) {
        if text.is_empty() {
            break;
        }
        let at = random.below(text.len());
        let to = text.len().min(at + 1 + random.below(8));
        let byte = if random.percent(90) { random.pick(BYTES) } else { random.byte() };
        match random.below(8) {
            0 => text[at] = byte,
            1 => drop(text.remove(at)),
            2 => text.insert(at, text[at]),
            3 => text.insert(at, byte),
            4 => text.swap(at, (at + 1).min(to - 1).max(at)),
            5 => drop(text.splice(at..at, text[at..to].to_vec()).collect::<Vec<u8>>()),
            6 => drop(text.drain(at..to)),
            _ => text.truncate(at),
        }
    }
    text
}

/// Any bytes, mostly such as texts are made of.
pub fn wild(random: &mut Random) -> Vec<u8> {
    const PIECES: [&str; 22] = [
        "0", "7", "65535", "65536", "[", "]", "[]", "/", "7/7/7/7", " | ", " ", "|", ".", "enter ", "exit ", "open ", "release ",
        "enter 7", "\n", "7[", "e", "r",
    ];
    if random.percent(20) {
        return (0..random.below(12)).map(|_| random.byte()).collect();
    }
    (0..random.below(12)).map(|_| random.pick(&PIECES)).collect::<String>().into_bytes()
}

/// Small texts of which every truncation and every change of one byte is tried.
pub const SMALL: [&str; 8] = [
    "0",
    "7[]",
    "7[enter 9] | 9[exit 7]",
    "open 1 | 1[2[3[exit 2]]]",
    "65535/0/65535/10[open 65535.exit 1 | 8[]] | 7/7/7/7[]",
    "6553[] | 65535[] | enter 6553.enter 65535 | 655[]",
    "exit 10.open 9.enter 100",
    "release 10.open 9 | 7[release 65535.enter 1]",
];
