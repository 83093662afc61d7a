//! Random plan texts and masks, and damage to texts and to the bytes of tables. Everything follows from a seed.
use crate::deep::{deep_text, deepest_text};
use crate::second::formula::RELATIONS;
use crate::second::plan::{HEADER, RECORD};

/// SplitMix64.
pub struct Random(u64);

impl Random {
    pub fn new(seed: u64) -> Self {
        Random(seed)
    }

    pub fn word(&mut self) -> u64 {
        self.0 = self.0.wrapping_add(0x9E37_79B9_7F4A_7C15);
        let z = (self.0 ^ (self.0 >> 30)).wrapping_mul(0xBF58_476D_1CE4_E5B9);
        let z = (z ^ (z >> 27)).wrapping_mul(0x94D0_49BB_1331_11EB);
        z ^ (z >> 31)
    }

    /// A number below n.
    pub fn below(&mut self, n: usize) -> usize {
        (self.word() % n as u64) as usize
    }

    pub fn chance(&mut self, percent: usize) -> bool {
        self.below(100) < percent
    }

    /// One of some numbers.
    pub fn one_of(&mut self, from: &[usize]) -> usize {
        from[self.below(from.len())]
    }

    pub fn pick<'a, T: ?Sized>(&mut self, from: &[&'a T]) -> &'a T {
        from[self.below(from.len())]
    }
}

/// Half of the plans have few ports, so that tuples of depth 3 are met; the others any number to 64.
pub fn ports(r: &mut Random) -> u64 {
    let most = if r.chance(50) { 5 } else { 64 };
    1 + r.below(most) as u64
}

/// A text as tokens, so that damage can be done to tokens as well as to bytes.
pub struct Text {
    pub u: u64,
    pub tokens: Vec<String>,
}

impl Text {
    /// The bytes, with blanks and line ends here and there.
    pub fn bytes(&self, r: &mut Random) -> Vec<u8> {
        let often = r.one_of(&[0, 10, 60]);
        let mut all = Vec::new();
        for (i, token) in self.tokens.iter().enumerate() {
            // Two digit runs would become one, and signs could join to another sign.
            if i > 0 && joins(&self.tokens[i - 1], token) || r.chance(often) {
                all.push(if r.chance(20) { b'\n' } else { b' ' });
            }
            all.extend(token.bytes());
        }
        if r.chance(10) {
            all.push(b'\n');
        }
        all
    }
}

fn joins(left: &str, right: &str) -> bool {
    let (Some(l), Some(f)) = (left.bytes().last(), right.bytes().next()) else {
        return false;
    };
    l.is_ascii_digit() && f.is_ascii_digit() || b"<>=!-".contains(&l) && b"<>=!-".contains(&f)
}

/// Makes a text that keeps every rule but, at times, the limits of nodes and cells.
pub struct Writer<'a> {
    r: &'a mut Random,
    u: u64,
    sets: Vec<char>,
    bound: Vec<char>,
    quantifiers: usize,
    /// How many literals may still be written.
    budget: usize,
    tokens: Vec<String>,
}

pub fn text(r: &mut Random) -> Text {
    let u = ports(r);
    let many = if r.chance(40) { 16 } else { 4 };
    let count = 1 + r.below(many);
    let mut letters: Vec<char> = ('A'..='Z').collect();
    let sets: Vec<char> = (0..count).map(|_| letters.remove(r.below(letters.len()))).collect();
    let quantifiers = r.below(4);
    let most = r.one_of(&[4, 10, 30]);
    let budget = 1 + r.below(most);
    let mut w = Writer { r, u, sets, bound: Vec::new(), quantifiers, budget, tokens: Vec::new() };
    w.put("[");
    for s in w.sets.clone() {
        w.put(&s.to_string());
    }
    w.put("]");
    w.formula(0);
    Text { u, tokens: w.tokens }
}

impl Writer<'_> {
    fn put(&mut self, token: &str) {
        self.tokens.push(token.to_string());
    }

    fn formula(&mut self, depth: usize) {
        self.disjunction(depth);
        if self.budget > 0 && self.r.chance(30) {
            let arrow = self.r.pick(&["->", "<-", "<->"]);
            self.put(arrow);
            self.disjunction(depth);
        }
    }

    fn disjunction(&mut self, depth: usize) {
        self.conjunction(depth);
        while self.budget > 0 && self.r.chance(30) {
            self.put("|");
            self.conjunction(depth);
        }
    }

    fn conjunction(&mut self, depth: usize) {
        self.unit(depth);
        while self.budget > 0 && self.r.chance(30) {
            self.put("&");
            self.unit(depth);
        }
    }

    fn unit(&mut self, depth: usize) {
        let choice = self.r.below(100);
        if self.bound.len() < self.quantifiers && (choice < 50 || depth == 0 && choice < 85) {
            let v = ('a'..='z').filter(|v| !self.bound.contains(v)).nth(self.r.below(20)).expect("26 letters");
            let sign = self.r.pick(&["@", "?"]);
            self.put(sign);
            self.put(&v.to_string());
            self.bound.push(v);
            self.unit(depth + 1);
            self.bound.pop();
        } else if choice < 60 && depth < 30 {
            self.put("~");
            self.unit(depth + 1);
        } else if choice < 85 && self.budget > 1 && depth < 30 {
            self.put("(");
            self.formula(depth + 1);
            self.put(")");
        } else {
            self.literal();
        }
    }

    fn variable(&mut self) -> String {
        self.bound[self.r.below(self.bound.len())].to_string()
    }

    fn set(&mut self) -> String {
        self.sets[self.r.below(self.sets.len())].to_string()
    }

    fn relation(&mut self) -> String {
        self.r.pick(&RELATIONS).to_string()
    }

    fn literal(&mut self) {
        self.budget = self.budget.saturating_sub(1);
        let choice = if self.bound.is_empty() { 0 } else { self.r.below(4) };
        let parts = match choice {
            0 => vec!["#".to_string(), self.set(), self.relation(), self.constant().to_string()],
            1 => vec![self.variable(), ":".to_string(), self.set()],
            2 => vec![self.variable(), "/".to_string(), self.set()],
            _ => vec![self.variable(), self.relation(), self.variable()],
        };
        self.tokens.extend(parts);
    }

    fn constant(&mut self) -> u64 {
        let most = [3, self.u.min(64), 64][self.r.below(3)];
        self.r.word() % (most + 1)
    }
}

/// Damage to a text, one for each ground that its writer can meet, and damage that aims at none.
pub const DAMAGES: usize = 14;

/// Damages the tokens of a text; `false` where the damage is one of bytes.
fn damage_tokens(text: &mut Text, which: usize, r: &mut Random) -> bool {
    let close = text.tokens.iter().position(|t| t == "]").unwrap_or(0);
    let start = (close + 1).min(text.tokens.len());
    let at = r.below(text.tokens.len());
    match which {
        0 => text.tokens[at] = r.pick(&["<", "->", "<-", "<->", ")", "(", "&", "x", "S", "7", "[", "]", "!", "-", "007"]).to_string(),
        1 => drop(text.tokens.remove(at)),
        2 => text.tokens.insert(at, r.pick(&["|", "~", "@", ":", "#", "=", "a", "Q", "12", "00"]).to_string()),
        3 => nest(text, start, r),
        4 => quantify(text, start, r),
        5 => replace(text, r, |t| t.len() == 1 && t.as_bytes()[0].is_ascii_lowercase(), &["x", "y", "q"]),
        6 => replace(text, r, |t| t.len() == 1 && t.as_bytes()[0].is_ascii_uppercase(), &["A", "M", "Z"]),
        7 => declare(text, close, r),
        8 => replace(text, r, |t| t.starts_with(|c: char| c.is_ascii_digit()), &CONSTANTS),
        9 => double_arrows(text, start, r),
        10 => conjuncts(text, start, r),
        _ => return false,
    }
    true
}

/// At the limit, above it, and past every word.
const CONSTANTS: [&str; 6] = ["64", "65", "66", "100", "18446744073709551616", "99999999999999999999999"];

/// The i-th letter from `first` on, round and round.
pub fn letter(first: u8, i: usize) -> String {
    ((first + (i % 26) as u8) as char).to_string()
}

/// Puts the formula into brackets.
fn bracket(text: &mut Text, start: usize) {
    text.tokens.insert(start, "(".to_string());
    text.tokens.push(")".to_string());
}

/// Around 64 of `(`, `~` and quantifiers: a few fewer, just as many, or more.
fn nest(text: &mut Text, start: usize, r: &mut Random) {
    let depth = 60 + r.below(9);
    let sign = r.pick(&["~", "("]);
    if sign == "(" {
        text.tokens.extend((0..depth).map(|_| ")".to_string()));
    } else {
        bracket(text, start);
    }
    let lead = vec![sign.to_string(); depth];
    text.tokens.splice(start..start, lead);
}

/// Many nested quantifiers: 7 from 4 on, 5 where letters run out, 4 from 65 on.
fn quantify(text: &mut Text, start: usize, r: &mut Random) {
    let most = r.one_of(&[4, 26, 70]);
    let depth = 1 + r.below(most);
    let lead: Vec<String> = (0..depth).flat_map(|i| ["@".to_string(), letter(b'a', i)]).collect();
    bracket(text, start);
    text.tokens.splice(start..start, lead);
}

/// More sets: declared twice, or a seventeenth.
fn declare(text: &mut Text, close: usize, r: &mut Random) {
    let more = 1 + r.below(20);
    let letters: Vec<String> = (0..more).map(|i| letter(b'A', i)).collect();
    text.tokens.splice(close..close, letters);
}

/// Nested double arrows double the core each time.
fn double_arrows(text: &mut Text, start: usize, r: &mut Random) {
    let most = r.one_of(&[9, 9, 40]);
    let times = 1 + r.below(most);
    let inner: Vec<String> = text.tokens.drain(start..).collect();
    let set = text.tokens.get(1).cloned().unwrap_or_default();
    let mut all = inner;
    for _ in 0..times {
        let literal = ["<->", "#", &set, "<", "3"].map(str::to_string);
        all = [vec!["(".to_string()], all, literal.to_vec(), vec![")".to_string()]].concat();
    }
    text.tokens.extend(all);
}

/// Many conjuncts below three quantifiers: too many cells for many ports.
fn conjuncts(text: &mut Text, start: usize, r: &mut Random) {
    text.u = 20 + r.below(45) as u64;
    let set = text.tokens.get(1).cloned().unwrap_or_default();
    let count = 1 + r.below(12);
    let mut all: Vec<String> = ["@", "x", "@", "y", "@", "z", "("].map(str::to_string).to_vec();
    for i in 0..count {
        all.extend([if i > 0 { "&" } else { "~" }, "x", ":", &set].map(str::to_string));
    }
    all.push(")".to_string());
    text.tokens.truncate(start);
    text.tokens.extend(all);
}

fn replace(text: &mut Text, r: &mut Random, fits: impl Fn(&str) -> bool, by: &[&'static str]) {
    let places: Vec<usize> = (0..text.tokens.len()).filter(|&i| fits(&text.tokens[i])).collect();
    if !places.is_empty() {
        let at = places[r.below(places.len())];
        text.tokens[at] = r.pick(by).to_string();
    }
}

fn damage_bytes(bytes: &mut Vec<u8>, which: usize, r: &mut Random) {
    let at = r.below(bytes.len() + 1);
    match which {
        11 => bytes.insert(at, r.pick(&[&9u8, &13, &0, &b'*', &b'$', &b'.', &200, &b'{', &b'_', &b'%'][..]).to_owned()),
        12 => {
            // About 4,096 bytes: just as many, fewer or more.
            let length = 4090 + r.below(14);
            while bytes.len() < length {
                bytes.insert(at, b' ');
            }
        }
        _ => {
            if at < bytes.len() {
                bytes[at] = r.word() as u8;
            }
        }
    }
}

/// Ports and bytes of a text with no damage, one or two; at times with a number of ports that no plan has. Some texts nest about as
/// deep as a text may, and a few much deeper.
pub fn any_text(r: &mut Random) -> (u64, Vec<u8>) {
    let (mut made, times) = match r.below(200) {
        // These are broken already.
        0..=15 => (deep_text(r), 0),
        16 | 17 => (deepest_text(r), 0),
        _ => (text(r), r.one_of(&[0, 0, 0, 1, 1, 2])),
    };
    let damages: Vec<usize> = (0..times).map(|_| r.below(DAMAGES)).collect();
    let left: Vec<usize> = damages.into_iter().filter(|d| made.tokens.is_empty() || !damage_tokens(&mut made, *d, r)).collect();
    let mut bytes = made.bytes(r);
    for damage in left {
        damage_bytes(&mut bytes, damage, r);
    }
    let u = if r.chance(4) { [0, 65, 256, 257, (1 << 32) + 3, u64::MAX, r.word()][r.below(7)] } else { made.u };
    (u, bytes)
}

/// Turns the formula F of a text into (F) & (G), where G is F with two of its sets exchanged, and says by number which: moves of
/// one are then as good as the same moves of the other wherever both hold the same ports. None where there is one set.
pub fn twin(text: &mut Text, r: &mut Random) -> Option<(usize, usize)> {
    let close = text.tokens.iter().position(|t| t == "]").filter(|close| *close > 2)?;
    let sets = text.tokens[1..close].to_vec();
    let one = r.below(sets.len());
    let other = (one + 1 + r.below(sets.len() - 1)) % sets.len();
    let formula = text.tokens.split_off(close + 1);
    let exchanged = |token: &String| match token {
        t if *t == sets[one] => sets[other].clone(),
        t if *t == sets[other] => sets[one].clone(),
        t => t.clone(),
    };
    let twin: Vec<String> = formula.iter().map(exchanged).collect();
    let sign = |token: &str| vec![token.to_string()];
    text.tokens.extend([sign("("), formula, sign(")"), sign("&"), sign("("), twin, sign(")")].concat());
    Some((one, other))
}

/// Declares one set more, which the formula does not name: a port that leaves another set may as well go there, so that a drop and
/// a transfer are equally good. None where there are 16 sets.
pub fn spare(text: &mut Text) {
    let Some(close) = text.tokens.iter().position(|t| t == "]").filter(|close| *close < 17) else { return };
    let unused = ('A'..='Z').map(String::from).find(|letter| !text.tokens[..close].contains(letter));
    text.tokens.splice(close..close, unused);
}

/// A sum of kinds, at times 0 or above 15, which is 14.
pub fn any_kinds(r: &mut Random) -> u32 {
    match r.below(10) {
        0 => [0, 16, r.word() as u32][r.below(3)],
        1..=4 => 1 << r.below(4),
        _ => 1 + r.below(15) as u32,
    }
}

/// Bytes that hold anything, so that one which is written, or not, is seen.
pub fn any_bytes(r: &mut Random, count: usize) -> Vec<u8> {
    (0..count).map(|_| r.word() as u8).collect()
}

/// A plan's own masks: n sets within u ports, sparse, dense or even, then the ports in test: none, one, all or any.
pub fn masks(r: &mut Random, u: usize, n: usize) -> Vec<u64> {
    let within = if u == 64 { u64::MAX } else { (1 << u) - 1 };
    let mut all: Vec<u64> = (0..n).map(|_| any_mask(r)).collect();
    all.push(match r.below(6) {
        0 => 0,
        1 => 1 << r.below(u),
        2 => u64::MAX,
        _ => any_mask(r),
    });
    all.iter_mut().for_each(|mask| *mask &= within);
    all
}

/// Fewer masks than n sets and the ports in test have; often those of the sets alone.
pub fn too_few_masks(r: &mut Random, n: usize) -> usize {
    if r.chance(50) {
        n
    } else {
        r.below(n)
    }
}

/// Puts a port of u or more into a set or, as often, among the ports in test.
pub fn put_outside(r: &mut Random, masks: &mut [u64], u: usize, n: usize) {
    let mask = if r.chance(50) { n } else { r.below(n) };
    masks[mask] |= 1 << (u + r.below(64 - u));
}

fn any_mask(r: &mut Random) -> u64 {
    match r.below(4) {
        0 => r.word() & r.word() & r.word(),
        1 => r.word() | r.word() | r.word(),
        2 => 0,
        _ => r.word(),
    }
}

/// One change to a plan table: a field of a record or of the header, its length, or the order of its records.
pub fn damage_table(bytes: &mut Vec<u8>, r: &mut Random) {
    let count = (bytes.len().saturating_sub(HEADER) / RECORD).max(1);
    let record = HEADER + RECORD * r.below(count);
    let small = r.below(10) as u8;
    match r.below(9) {
        0 => set(bytes, r.below(HEADER), small),
        1 => set(bytes, record, small),
        2 => set(bytes, record + 1 + r.below(3), small),
        3 => set(bytes, record + 4, r.below(count + 2) as u8),
        4 => set(bytes, record + 6, r.below(count + 2) as u8),
        5 => {
            let at = r.below(bytes.len().max(1));
            let value = r.word() as u8;
            set(bytes, at, value);
        }
        6 => bytes.truncate(r.below(bytes.len() + 1)),
        7 => {
            let other = HEADER + RECORD * r.below(count);
            for i in 0..RECORD {
                if record.max(other) + i < bytes.len() {
                    bytes.swap(record + i, other + i);
                }
            }
        }
        _ => {
            // The same change of one low byte, by one: parents, ends and the node count are close to each other.
            let at = if r.chance(20) { 7 } else { record + [4, 6][r.below(2)] };
            if at < bytes.len() {
                bytes[at] = bytes[at].wrapping_add([1, 255][r.below(2)]);
            }
        }
    }
}

fn set(bytes: &mut [u8], at: usize, value: u8) {
    if at < bytes.len() {
        bytes[at] = value;
    }
}
