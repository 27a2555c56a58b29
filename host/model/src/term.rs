//! Cell files from terms, so that examples can be written as the listing writes them.

/// The cell file of a term such as `7[enter 9] | 9[exit 7]` (`0` is the empty floor) or, with keys, `9/5/6/0[]`: places are numbered from 1
/// and agents from 0, in the order in which they appear. A place written with keys has a record of kind 6, any other one of kind 1.
pub fn file_of(term: &str) -> Vec<u8> {
    let mut writer = Writer { text: term.as_bytes(), at: 0, file: Vec::new(), places: 0, agents: 0 };
    if term != "0" {
        writer.contents(0);
    }
    writer.file.push(4);
    writer.file
}

/// The term, how far it is read, and the file so far.
struct Writer<'a> {
    text: &'a [u8],
    at: usize,
    file: Vec<u8>,
    places: u8,
    agents: u8,
}

impl Writer<'_> {
    /// Contents of a place, up to the closing bracket or the end of the term.
    fn contents(&mut self, parent: u8) {
        while self.at < self.text.len() && self.text[self.at] != b']' {
            match self.text[self.at] {
                b' ' | b'|' => self.at += 1,
                b'0'..=b'9' => self.place(parent),
                _ => self.agent(parent),
            }
        }
    }

    /// A place: its name and, if there are any, its keys, a slash before each; `[`, contents, `]`.
    fn place(&mut self, parent: u8) {
        self.places += 1;
        let number = self.places;
        let name = self.name();
        let kind = if self.text[self.at] == b'/' { 6 } else { 1 };
        self.file.extend([kind, number, parent, name[0], name[1]]);
        while self.text[self.at] == b'/' {
            self.at += 1;
            let key = self.name();
            self.file.extend(key);
        }
        self.at += 1;
        self.contents(number);
        self.at += 1;
    }

    /// An agent: its actions, joined by dots.
    fn agent(&mut self, home: u8) {
        let number = self.agents;
        self.agents += 1;
        self.file.extend([2, number, home]);
        loop {
            let (kind, word) = match self.text[self.at..] {
                [b'e', b'n', ..] => (1, "enter "),
                [b'e', b'x', ..] => (2, "exit "),
                [b'r', ..] => (4, "release "),
                _ => (3, "open "),
            };
            self.at += word.len();
            let name = self.name();
            self.file.extend([3, number, kind, name[0], name[1]]);
            if self.text.get(self.at) != Some(&b'.') {
                break;
            }
            self.at += 1;
        }
    }

    /// A decimal name or key, low byte first.
    fn name(&mut self) -> [u8; 2] {
        let mut name: u16 = 0;
        while let Some(digit @ b'0'..=b'9') = self.text.get(self.at) {
            name = 10 * name + (digit - b'0') as u16;
            self.at += 1;
        }
        name.to_le_bytes()
    }
}
