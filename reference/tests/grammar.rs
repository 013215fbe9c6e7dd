//! Refusal 4 against a second reader that knows nothing but the productions.
//!
//! It holds all readings of a prefix at once (Earley's way). A prefix after which
//! some file can follow is one that leaves it any reading at all.

use std::collections::BTreeSet;

use reference::cases::damage::{any_bytes, damage_tokens};
use reference::cases::draws::Draws;
use reference::cases::monitors::any_accepted;
use reference::cases::words::{laid_out, Layout};
use reference::cases::Size;
use reference::grammar::read;
use reference::tokens::{tokens, Kind, Token, MARKS, RESERVED};

/// Document 01's list with document 02's `try` and `mod`, one production a line. NAME and NUMBER
/// stand for tokens.
const PRODUCTIONS: &str = "
File -> monitor NAME { Variables keep Condition ; Tries Methods }
Variables -> Variable
Variables -> Variable Variables
Variable -> var NAME = Integer in Integer .. Integer ;
Integer -> NUMBER
Integer -> - NUMBER
Tries ->
Tries -> try Condition ; Tries
Methods -> Method
Methods -> Method Methods
Method -> method NAME { Regions }
Regions -> Region
Regions -> Region Regions
Region -> waituntil ( Condition ) { Statements }
Statements ->
Statements -> Statement Statements
Statement -> NAME := Expression ;
Statement -> if ( Condition ) { Statements }
Statement -> if ( Condition ) { Statements } else { Statements }
Condition -> Conjunction
Condition -> Condition || Conjunction
Conjunction -> Simple
Conjunction -> Conjunction && Simple
Simple -> ! Simple
Simple -> ( Condition )
Simple -> true
Simple -> false
Simple -> Expression Comparison Expression
Comparison -> ==
Comparison -> !=
Comparison -> <
Comparison -> <=
Comparison -> >
Comparison -> >=
Expression -> Term
Expression -> Expression + Term
Expression -> Expression - Term
Term -> Operand
Term -> Operand mod Operand
Operand -> Integer
Operand -> NAME
";

struct Grammar {
    productions: Vec<(&'static str, Vec<&'static str>)>,
}

/// A production, how much of it is read, and where that began.
type Item = (usize, usize, usize);

impl Grammar {
    fn new() -> Grammar {
        let lines = PRODUCTIONS.lines().filter(|line| !line.is_empty());
        let productions = lines.map(|line| {
            let mut symbols = line.split_whitespace();
            let left = symbols.next().unwrap();
            (left, symbols.skip(1).collect())
        });
        Grammar { productions: productions.collect() }
    }

    fn next_symbol(&self, item: Item) -> Option<&'static str> {
        self.productions[item.0].1.get(item.1).copied()
    }

    fn is_nullable(&self, symbol: &str) -> bool {
        self.productions.iter().any(|(left, right)| *left == symbol && right.is_empty())
    }

    /// Adds to the last set all that follows from it.
    fn close(&self, sets: &[BTreeSet<Item>], seeds: Vec<Item>) -> BTreeSet<Item> {
        let here = sets.len();
        let mut set = BTreeSet::new();
        let mut waiting = seeds;
        while let Some(item) = waiting.pop() {
            if !set.insert(item) {
                continue;
            }
            match self.next_symbol(item) {
                None => {
                    let left = self.productions[item.0].0;
                    let origin = if item.2 == here { &set } else { &sets[item.2] };
                    let parents =
                        origin.iter().filter(|parent| self.next_symbol(**parent) == Some(left));
                    waiting.extend(parents.map(|parent| (parent.0, parent.1 + 1, parent.2)));
                }
                Some(symbol) => {
                    for (number, (left, _)) in self.productions.iter().enumerate() {
                        if *left == symbol {
                            waiting.push((number, 0, here));
                        }
                    }
                    if self.is_nullable(symbol) {
                        waiting.push((item.0, item.1 + 1, item.2));
                    }
                }
            }
        }
        set
    }

    fn start(&self) -> Vec<BTreeSet<Item>> {
        vec![self.close(&[], vec![(0, 0, 0)])]
    }

    /// The set after one more token; empty if no file can follow.
    fn after(&self, sets: &[BTreeSet<Item>], symbol: &str) -> BTreeSet<Item> {
        let last = sets.last().unwrap();
        let moved = last.iter().filter(|item| self.next_symbol(**item) == Some(symbol));
        let moved = moved.map(|item| (item.0, item.1 + 1, item.2)).collect();
        self.close(sets, moved)
    }

    fn is_whole(&self, sets: &[BTreeSet<Item>]) -> bool {
        let whole = (0, self.productions[0].1.len(), 0);
        sets.last().unwrap().contains(&whole)
    }

    /// The place of refusal 4, if there is one.
    fn refusal(&self, tokens: &[Token], file_length: usize) -> Option<usize> {
        let mut sets = self.start();
        for token in tokens {
            let set = self.after(&sets, symbol_of(token));
            if set.is_empty() {
                return Some(token.place);
            }
            sets.push(set);
        }
        (!self.is_whole(&sets)).then_some(file_length)
    }
}

fn symbol_of(token: &Token) -> &str {
    match token.kind {
        Kind::Number => "NUMBER",
        Kind::Word if token.is_name() => "NAME",
        _ => std::str::from_utf8(&token.text).unwrap(),
    }
}

/// A file with everything in it that the grammar has.
const RICH: &str = "monitor m { var x = -1 in -2..3; var y = 0 in 0..1; \
    keep !(x == 1 - 2 + y || y < -1 && true) && x mod 3 != 2 || false; \
    try x < 3; try !true || (y == 0 && x != -1); \
    method a { waituntil (x <= 2) { x := x + 1 - -1 mod -2; if (y > 0) { y := 0; } else { if (!true) { } } } \
    waituntil (true) { } } \
    method b { waituntil (x >= 0 mod y - y) { } } }";

/// After every prefix of the file, every token is judged alike by both.
#[test]
fn every_token_at_every_place() {
    let grammar = Grammar::new();
    let good = tokens(RICH.as_bytes()).unwrap();
    assert_eq!(grammar.refusal(&good, RICH.len()), None);
    assert!(read(&good, RICH.len()).is_ok());
    let words = RESERVED.iter().chain(&["x", "True"]).map(|word| (Kind::Word, *word));
    let numbers = [(Kind::Number, "0"), (Kind::Number, "999")];
    let marks = MARKS.iter().map(|mark| (Kind::Mark, *mark));
    let all: Vec<(Kind, &str)> = words.chain(numbers).chain(marks).collect();
    let mut sets = grammar.start();
    let mut followed = 0;
    for length in 0..=good.len() {
        // The prefix alone ends early, but for the whole file.
        let whole = read(&good[..length], 5000);
        assert_eq!(whole.is_ok(), grammar.is_whole(&sets));
        for (kind, text) in &all {
            let token = Token { kind: *kind, text: text.as_bytes().to_vec(), place: 4000 };
            let can_follow = !grammar.after(&sets, symbol_of(&token)).is_empty();
            let tried = [&good[..length], &[token]].concat();
            let refused_here = read(&tried, 5000).is_err_and(|answer| answer.first == 4000);
            assert_eq!(can_follow, !refused_here, "{text} after {length} tokens");
            followed += usize::from(can_follow);
        }
        if length < good.len() {
            sets.push(grammar.after(&sets, symbol_of(&good[length])));
        }
    }
    assert!(followed > 2 * good.len());
}

fn agree(grammar: &Grammar, file: &[u8]) -> bool {
    let Ok(tokens) = tokens(file) else {
        return false;
    };
    let place = read(&tokens, file.len()).err().map(|answer| answer.first);
    assert_eq!(place, grammar.refusal(&tokens, file.len()), "{}", String::from_utf8_lossy(file));
    place.is_some()
}

#[test]
fn damaged_files() {
    let grammar = Grammar::new();
    let mut refused = 0;
    for case in 0..1500 {
        let mut draws = Draws::of(6, case);
        let sketch = any_accepted(&mut draws, Size::SMALL).sketch;
        let mut words = sketch.words(&mut draws);
        for _ in 0..draws.below(4) {
            damage_tokens(&mut draws, &mut words);
        }
        let file = laid_out(&mut draws, &words, Layout::Loose);
        refused += usize::from(agree(&grammar, &file));
        let any = any_bytes(&mut draws, 60);
        agree(&grammar, &any);
    }
    assert!(refused > 700, "{refused}");
}
