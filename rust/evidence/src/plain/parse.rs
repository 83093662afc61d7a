//! The tree of a plan text, with the size of its core counted on the way: grounds 3 to 9.
use super::check::{ALL, AND, COMPARE, IN, NOT_IN, OR, SIZE, SOME};
use super::tokens::{Token, Tokens};
use super::tree::{merges, Op, Tree, NOTHING};

/// Numbers past every limit stay here: nested double arrows double the core each time.
const PAST: u64 = 1 << 32;
const UNKNOWN: u8 = u8::MAX;

pub struct Parser<'a> {
    tokens: Tokens<'a>,
    pub trees: Vec<Tree>,
    sets: [u8; 26],
    pub set_count: usize,
    variables: [u8; 26],
    powers: [u64; 4],
    depth: usize,
    around: usize,
    /// The least ground of 4 to 7 met so far, or 0.
    ground: u32,
}

/// Ground 3.
pub struct Outside;

type Parsed<T> = Result<T, Outside>;

impl<'a> Parser<'a> {
    pub fn of(u: u64, text: &'a [u8]) -> Self {
        let tokens = Tokens::of(text);
        let (sets, variables, powers) = ([UNKNOWN; 26], [UNKNOWN; 26], [1, u, u * u, u * u * u]);
        Parser { tokens, trees: Vec::with_capacity(text.len() / 2), sets, set_count: 0, variables, powers, depth: 0, around: 0, ground: 0 }
    }

    fn met(&mut self, ground: u32) {
        self.ground = if self.ground == 0 { ground } else { self.ground.min(ground) };
    }

    fn take(&mut self) -> Token {
        let token = self.tokens.next;
        self.tokens.advance();
        token
    }

    fn takes(&mut self, token: Token) -> bool {
        let fits = self.tokens.next == token;
        if fits {
            self.tokens.advance();
        }
        fits
    }

    fn expect(&mut self, token: Token) -> Parsed<()> {
        self.takes(token).then_some(()).ok_or(Outside)
    }

    /// The whole text: its tree, its nodes and cells without the root's, or the first ground that applies.
    pub fn text(&mut self) -> Result<(usize, u64, u64), u32> {
        let tree = self.declared().and_then(|()| self.formula()).and_then(|tree| self.expect(Token::End).map(|()| tree));
        let tree = tree.map_err(|Outside| 3u32)?;
        let (nodes, cells) = (self.trees[tree].nodes[0], self.trees[tree].cells[0]);
        match self.ground {
            0 if nodes + 1 > 512 => Err(8),
            0 if cells + 1 > 1 << 20 => Err(9),
            0 => Ok((tree, nodes, cells)),
            ground => Err(ground),
        }
    }

    fn declared(&mut self) -> Parsed<()> {
        self.expect(Token::Sign(b'['))?;
        let mut letters = 0;
        while let Token::Upper(letter) = self.tokens.next {
            if letters >= 16 || self.sets[usize::from(letter)] != UNKNOWN {
                self.met(5);
            } else {
                self.sets[usize::from(letter)] = letters;
            }
            letters = letters.saturating_add(1).min(UNKNOWN - 1);
            self.tokens.advance();
        }
        self.set_count = usize::from(letters);
        if letters == 0 {
            return Err(Outside);
        }
        self.expect(Token::Sign(b']'))
    }

    fn formula(&mut self) -> Parsed<usize> {
        let left = self.joined(b'|')?;
        let op = match self.tokens.next {
            Token::Right => Op::Right,
            Token::Left => Op::Left,
            Token::Both => Op::Both,
            _ => return Ok(left),
        };
        self.tokens.advance();
        let right = self.joined(b'|')?;
        self.trees[left].next = right;
        let kind = if op == Op::Both { [AND, OR] } else { [OR, AND] };
        Ok(self.joint(op, kind, left))
    }

    /// A disjunction or a conjunction.
    fn joined(&mut self, sign: u8) -> Parsed<usize> {
        let part = |parser: &mut Self| if sign == b'|' { parser.joined(b'&') } else { parser.unit() };
        let first = part(self)?;
        if self.tokens.next != Token::Sign(sign) {
            return Ok(first);
        }
        let mut last = first;
        while self.takes(Token::Sign(sign)) {
            let next = part(self)?;
            self.trees[last].next = next;
            last = next;
        }
        let (op, kind) = if sign == b'|' { (Op::Or, [OR, AND]) } else { (Op::And, [AND, OR]) };
        Ok(self.joint(op, kind, first))
    }

    /// What stands inside of one more `(`, `~` or quantifier.
    fn inside<T>(&mut self, inner: impl FnOnce(&mut Self) -> Parsed<T>) -> Parsed<T> {
        self.around += 1;
        if self.around > 64 {
            self.met(4);
        }
        let answer = inner(self)?;
        self.around -= 1;
        Ok(answer)
    }

    fn unit(&mut self) -> Parsed<usize> {
        match self.take() {
            Token::Sign(b'~') => {
                let child = self.inside(Self::unit)?;
                let Tree { kind, nodes, cells, .. } = self.trees[child];
                let (kind, nodes, cells) = ([kind[1], kind[0]], [nodes[1], nodes[0]], [cells[1], cells[0]]);
                Ok(self.put(Tree { op: Op::Not, kind, first: child, nodes, cells, ..NOTHING }))
            }
            Token::Sign(b'(') => {
                let tree = self.inside(Self::formula)?;
                self.expect(Token::Sign(b')'))?;
                Ok(tree)
            }
            Token::Sign(b'@') => self.quantified([ALL, SOME]),
            Token::Sign(b'?') => self.quantified([SOME, ALL]),
            Token::Sign(b'#') => self.size(),
            Token::Lower(letter) => self.literal(letter),
            _ => Err(Outside),
        }
    }

    fn quantified(&mut self, kind: [u8; 2]) -> Parsed<usize> {
        let Token::Lower(letter) = self.take() else {
            return Err(Outside);
        };
        let letter = usize::from(letter);
        let outer = self.variables[letter];
        if outer != UNKNOWN {
            self.met(5);
        }
        if self.depth >= 3 {
            self.met(7);
        }
        self.variables[letter] = self.depth.min(usize::from(UNKNOWN) - 1) as u8;
        self.depth += 1;
        let child = self.inside(Self::unit)?;
        self.depth -= 1;
        self.variables[letter] = outer;
        Ok(self.joint(Op::Quantifier, kind, child))
    }

    fn set(&mut self) -> Parsed<u8> {
        let Token::Upper(letter) = self.take() else {
            return Err(Outside);
        };
        let set = self.sets[usize::from(letter)];
        if set == UNKNOWN {
            self.met(5);
        }
        Ok(set)
    }

    fn variable(&mut self, letter: u8) -> u8 {
        let variable = self.variables[usize::from(letter)];
        if variable == UNKNOWN {
            self.met(5);
        }
        variable
    }

    fn size(&mut self) -> Parsed<usize> {
        let set = self.set()?;
        let (Token::Relation(relation), Token::Number(constant)) = (self.take(), self.take()) else {
            return Err(Outside);
        };
        if constant > 64 {
            self.met(6);
        }
        Ok(self.leaf([SIZE, SIZE], relation, set, constant))
    }

    fn literal(&mut self, letter: u8) -> Parsed<usize> {
        let a = self.variable(letter);
        match self.take() {
            Token::Sign(b':') => self.set().map(|set| self.leaf([IN, NOT_IN], 0, a, set)),
            Token::Sign(b'/') => self.set().map(|set| self.leaf([NOT_IN, IN], 0, a, set)),
            Token::Relation(relation) => {
                let Token::Lower(letter) = self.take() else {
                    return Err(Outside);
                };
                let b = self.variable(letter);
                Ok(self.leaf([COMPARE, COMPARE], relation, a, b))
            }
            _ => Err(Outside),
        }
    }

    fn width(&self) -> u64 {
        self.powers[self.depth.min(3)]
    }

    fn put(&mut self, tree: Tree) -> usize {
        self.trees.push(tree);
        self.trees.len() - 1
    }

    fn leaf(&mut self, kind: [u8; 2], relation: u8, a: u8, b: u8) -> usize {
        let cells = [self.width(); 2];
        self.put(Tree { op: Op::Literal, kind, relation, a, b, nodes: [1; 2], cells, ..NOTHING })
    }

    /// A tree with children and what it comes to in the core, as it is and negated.
    fn joint(&mut self, op: Op, kind: [u8; 2], first: usize) -> usize {
        let mut tree = Tree { op, kind, first, ..NOTHING };
        for way in 0..2 {
            let (mut nodes, mut cells) = (1, self.width());
            if op == Op::Both {
                (nodes, cells) = (3 * nodes, 3 * cells);
            }
            for (child, way, kind) in tree.parts(&self.trees, way) {
                let below = &self.trees[child];
                let merges = u64::from(merges(below.kind[way], kind));
                nodes += below.nodes[way] - merges;
                cells += below.cells[way] - merges * self.width();
            }
            tree.nodes[way] = nodes.min(PAST);
            tree.cells[way] = cells.min(PAST);
        }
        self.put(tree)
    }
}
