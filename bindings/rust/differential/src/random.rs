//! Random globs and paths, the same in each run.

/// A generator of numbers: xorshift64*.
pub struct Random(u64);

const GLOB_PIECES: &[&str] = &[
    "a",
    "b",
    "c",
    "ab",
    "foo",
    "a",
    "b",
    "/",
    "/",
    "/",
    "*",
    "*",
    "*",
    "**",
    "**/",
    "/**",
    "/**/",
    "?",
    "?",
    "[ab]",
    "[!a]",
    "[^b]",
    "[a-c]",
    "[é]",
    "[a-é]",
    "[-a]",
    "[]]",
    "[!]]",
    "[z-a]",
    "[b-a",
    "[",
    "]",
    "{",
    "{",
    "}",
    "}",
    ",",
    ",",
    "{a,b}",
    "{*.c,*.rs}",
    "{,a}",
    "\\,",
    "\\{",
    "\\}",
    "\\*",
    "\\?",
    "\\a",
    "\\",
    ".",
    ".rs",
    ".c",
    "..",
    "é",
    "☃",
    "-",
    "!",
    "^",
    " ",
    "(",
    "|",
    "+",
    "$",
    "~",
    "#",
    "&",
    "\n",
    "A",
    "B",
];
const PLAIN_PIECES: &[&str] = &["a", "b", "ab", "foo", "/", "*", "**/", "*.", ".rs", ".c", ".", ".."];
const BRACE_PIECES: &[&str] = &["{", "}", "}", ",", "\\,", "\\{", "\\,**", "\\{**", "**", "**", "/", "a", "*"];
const PATH_PIECES: &[&str] = &[
    "a", "b", "c", "ab", "foo", "a", "b", "/", "/", "/", ".rs", ".c", ".", "..", "/..", "é", "☃", "x", "A", "B", ",",
    "{", "}", "*", "-", "\\", "\n", " ", "]", "[",
];

impl Random {
    pub fn new(seed: u64) -> Random {
        Random(seed)
    }

    /// A number below `limit`.
    pub fn below(&mut self, limit: usize) -> usize {
        self.0 ^= self.0 >> 12;
        self.0 ^= self.0 << 25;
        self.0 ^= self.0 >> 27;
        let high = self.0.wrapping_mul(0x2545_f491_4f6c_dd1d) >> 33;
        high as usize % limit
    }

    fn joined(&mut self, pieces: &[&str], most: usize) -> String {
        let count = self.below(most + 1);
        (0..count).map(|_| pieces[self.below(pieces.len())]).collect()
    }

    pub fn glob(&mut self) -> String {
        match self.below(10) {
            0..=4 => self.joined(GLOB_PIECES, 7),
            5 => self.joined(BRACE_PIECES, 9),
            6 => format!("**/{}", self.joined(PLAIN_PIECES, 3)),
            7 => format!("*.{}", ["c", "rs", "", "a.rs", "[ch]"][self.below(5)]),
            8 => {
                let beginning = ["a*", "*a*", "**/a*", "?", "*b", "a/*"][self.below(6)];
                format!("{beginning}{}", [".c", ".rs", ".c.rs"][self.below(3)])
            }
            _ => self.joined(PLAIN_PIECES, 5),
        }
    }

    /// Five options: each of them is on in one case of eight, but that `\` escapes is off as often.
    pub fn options(&mut self) -> [bool; 5] {
        std::array::from_fn(|_| self.below(8) == 0)
    }

    pub fn path(&mut self) -> Vec<u8> {
        let mut path = self.joined(PATH_PIECES, 6).into_bytes();
        if self.below(8) == 0 {
            let at = self.below(path.len() + 1);
            path.insert(at, [0xff, 0xc3, 0x00, 0xa9][self.below(4)]);
        }
        path
    }

    /// A path that is made from a glob's text, so that the glob may well match it.
    pub fn path_like(&mut self, glob: &str) -> Vec<u8> {
        let mut path = String::new();
        let mut characters = glob.chars().peekable();
        while let Some(character) = characters.next() {
            match character {
                '*' => path.push_str(["", "", "a", "b/", "x.rs", "/"][self.below(6)]),
                '?' => path.push_str(["a", "b", "/", "é"][self.below(4)]),
                '[' | '!' | '^' | ']' | '{' if self.below(4) > 0 => {}
                ',' if self.below(2) == 0 => while characters.next_if(|&skipped| skipped != '}').is_some() {},
                '}' | '\\' if self.below(8) > 0 => {}
                _ => path.push(character),
            }
        }
        path.into_bytes()
    }
}
