//! Makes up catalogues and queries, asks the map half of trie-rs, and writes each case and its answer down.
//! Usage: make_cases CASES ANSWERS. README.md beside this file has the form of both.

use louds_rs::LoudsNodeNum;
use std::collections::BTreeMap;
use std::fmt::Write;
use trie_rs::inc_search::{Answer, IncSearch};
use trie_rs::map::{Trie, TrieBuilder};

type Entries = Vec<(Vec<u8>, u32)>;

/// Numbers that are the same in every run: xorshift with a fixed start.
struct Draw(u64);

impl Draw {
    fn next(&mut self) -> u64 {
        self.0 ^= self.0 << 13;
        self.0 ^= self.0 >> 7;
        self.0 ^= self.0 << 17;
        self.0
    }

    /// A number below `end`.
    fn below(&mut self, end: usize) -> usize {
        ((self.next() >> 16) % end as u64) as usize
    }

    fn of<'a, T>(&mut self, all: &'a [T]) -> &'a T {
        &all[self.below(all.len())]
    }

    fn value(&mut self) -> u32 {
        match self.below(8) {
            0 => 0,
            1 => u32::MAX,
            2 => 1 << 31,
            3 => self.below(10) as u32,
            _ => (self.next() >> 20) as u32,
        }
    }

    /// Two to six bytes, some of them perhaps the same.
    fn letters(&mut self) -> Vec<u8> {
        (0..2 + self.below(5)).map(|_| self.below(256) as u8).collect()
    }

    fn key(&mut self, alphabet: &[u8], longest: usize) -> Vec<u8> {
        let length = 1 + self.below(longest);
        (0..length).map(|_| *self.of(alphabet)).collect()
    }
}

#[derive(Default)]
struct Book {
    cases: String,
    answers: String,
}

impl Book {
    fn title(&mut self, text: &str) {
        writeln!(self.cases, "# {text}").unwrap();
        writeln!(self.answers, "# {text}").unwrap();
    }

    fn case(&mut self, letter: char, number: u32, bytes: &[u8], answer: &str) {
        write!(self.cases, "{letter} {number:08x}").unwrap();
        if !bytes.is_empty() {
            write!(self.cases, " {}", hex(bytes)).unwrap();
        }
        self.cases.push('\n');
        writeln!(self.answers, "{letter}{answer}").unwrap();
    }
}

fn hex(bytes: &[u8]) -> String {
    bytes.iter().map(|byte| format!("{byte:02x}")).collect()
}

/// Bytes as an answer has them: a space and their digits, nothing where there are none.
fn spelled(bytes: &[u8]) -> String {
    if bytes.is_empty() {
        return String::new();
    }
    format!(" {}", hex(bytes))
}

fn found(value: Option<u32>) -> String {
    match value {
        Some(value) => format!(" {value}"),
        None => " none".to_string(),
    }
}

fn node_of(search: &IncSearch<u8, u32>) -> u64 {
    LoudsNodeNum::from(search.clone()).0
}

fn told(answer: Answer) -> &'static str {
    match answer {
        Answer::Prefix => "prefix",
        Answer::Match => "match",
        Answer::PrefixAndMatch => "both",
    }
}

fn queried(answer: Option<Answer>, search: &IncSearch<u8, u32>) -> String {
    format!(" {} at {}", answer.map_or("none", told), node_of(search))
}

/// The node that a key's path leads to.
fn path_node(trie: &Trie<u8, u32>, path: &[u8]) -> u64 {
    let mut search = trie.inc_search();
    if !path.is_empty() {
        search.query_until(path).expect("the path is there");
    }
    node_of(&search)
}

/// A listing: where it starts, each entry by its node, value and key, and the end, which comes again at the next step.
fn listing(trie: &Trie<u8, u32>, query: &[u8], given: Vec<(Vec<u8>, &u32)>, is_postfix: bool) -> String {
    let mut line = format!(" {}", is_postfix as u8);
    if given.is_empty() {
        line.push_str(" finished");
    } else {
        write!(line, " top {} last 0", path_node(trie, query)).unwrap();
    }
    for (key, value) in given {
        let whole = if is_postfix { [query, &key[..]].concat() } else { key.clone() };
        write!(line, " | {} {value} {}{}", path_node(trie, &whole), key.len(), spelled(&key)).unwrap();
    }
    line.push_str(" | end | end");
    line
}

/// The image as the Rust builds it: its bits from the stand-in, labels and values from places at each node.
fn image(trie: &Trie<u8, u32>, bits: &[bool]) -> String {
    let nodes = nodes_of(bits);
    let places: Vec<_> = (2..nodes + 2).map(|node| IncSearch::resume(trie, LoudsNodeNum(node as u64))).collect();
    let mut line = String::from(" labels");
    for place in &places {
        let path: Vec<u8> = place.prefix();
        let mark = if place.value().is_some() { 256 } else { 0 };
        write!(line, " {}", *path.last().unwrap() as u32 + mark).unwrap();
    }
    line.push_str(" values");
    for place in &places {
        write!(line, " {}", place.value().copied().unwrap_or(0)).unwrap();
    }
    line.push_str(" words");
    for part in bits.chunks(64) {
        let word = part.iter().enumerate().fold(0u64, |word, (i, bit)| word | (*bit as u64) << i);
        write!(line, " {word}").unwrap();
    }
    line
}

fn nodes_of(bits: &[bool]) -> usize {
    (bits.len() - 3) / 2
}

/// The searches of map/trie.rs and its iterators with one query.
fn searches(book: &mut Book, draw: &mut Draw, trie: &Trie<u8, u32>, query: &[u8]) {
    book.case('e', 0, query, &found(trie.exact_match(query).copied()));
    book.case('y', 0, query, if trie.is_prefix(query) { " yes" } else { " no" });
    let longest: Option<Vec<u8>> = trie.longest_prefix(query);
    let longest = match longest {
        Some(prefix) => format!(" {}{}", prefix.len(), spelled(&prefix)),
        None => " none".to_string(),
    };
    book.case('l', 0, query, &longest);
    let given: Vec<(Vec<u8>, &u32)> = trie.predictive_search(query).collect();
    book.case('f', 0, query, &listing(trie, query, given, false));
    let given: Vec<(Vec<u8>, &u32)> = trie.postfix_search(query).collect();
    book.case('g', 0, query, &listing(trie, query, given, true));
    common(book, draw, trie, query);
}

fn common(book: &mut Book, draw: &mut Draw, trie: &Trie<u8, u32>, query: &[u8]) {
    let given: Vec<(Vec<u8>, &u32)> = trie.common_prefix_search(query).collect();
    let one = |given: Option<&(Vec<u8>, &u32)>| match given {
        Some((part, value)) => format!(" {} {value}{}", part.len(), spelled(part)),
        None => " none".to_string(),
    };
    let mut line = String::new();
    for entry in &given {
        write!(line, " |{}", one(Some(entry))).unwrap();
    }
    book.case('c', 0, query, &format!("{line} | none"));
    let seen = match draw.below(3) {
        0 => query.len(),
        1 => given.first().map_or(0, |(part, _)| part.len()),
        _ => draw.below(query.len() + 2),
    };
    book.case('k', seen as u32, query, &one(given.iter().find(|(part, _)| part.len() > seen)));
}

/// The place read in full.
fn read_place(book: &mut Book, search: &IncSearch<u8, u32>) {
    book.case('v', 0, &[], &found(search.value().copied()));
    let prefix: Vec<u8> = search.prefix();
    book.case('x', 0, &[], &format!(" {} {}{}", search.prefix_len(), prefix.len(), spelled(&prefix)));
}

fn go_on(book: &mut Book, search: &mut IncSearch<u8, u32>) {
    let answer = match search.goto_longest_prefix() {
        Ok(distance) => format!(" ok {distance} at {}", node_of(search)),
        Err(distance) => format!(" err {distance} at {}", node_of(search)),
    };
    book.case('o', 0, &[], &answer);
}

fn type_label(book: &mut Book, search: &mut IncSearch<u8, u32>, label: u8) {
    let answer = search.peek(&label);
    book.case('t', label as u32, &[], &queried(answer, search));
    let answer = search.query(&label);
    book.case('a', label as u32, &[], &queried(answer, search));
}

fn until(book: &mut Book, search: &mut IncSearch<u8, u32>, query: &[u8]) {
    let answer = match search.query_until(query) {
        Ok(answer) => format!(" {} at {}", told(answer), node_of(search)),
        Err(index) => format!(" err {index} at {}", node_of(search)),
    };
    book.case('q', 0, query, &answer);
}

/// The searches of inc_search.rs, from the root by a query, with a label after it.
fn places(book: &mut Book, trie: &Trie<u8, u32>, query: &[u8], label: u8, rest: &[u8]) {
    let mut search = trie.inc_search();
    book.case('r', 1, &[], " at 1");
    until(book, &mut search, query);
    read_place(book, &search);
    type_label(book, &mut search, label);
    go_on(book, &mut search);
    until(book, &mut search, rest);
    read_place(book, &search);
}

/// A place taken up again by its number, then sent on.
fn resumed(book: &mut Book, trie: &Trie<u8, u32>, node: u64) {
    let mut search = IncSearch::resume(trie, LoudsNodeNum(node));
    book.case('r', node as u32, &[], &format!(" at {node}"));
    read_place(book, &search);
    go_on(book, &mut search);
    read_place(book, &search);
}

/// The labels of a node's children.
fn labels_below(search: &IncSearch<u8, u32>) -> Vec<u8> {
    (0..=255).filter(|label| search.peek(label).is_some()).collect()
}

/// Queries of every kind: the empty one, a key, parts of keys, a key and more, a key with one byte off by one.
fn queries_for(draw: &mut Draw, keys: &[Vec<u8>]) -> Vec<Vec<u8>> {
    let mut queries = vec![vec![]];
    if keys.is_empty() {
        queries.extend([vec![0], vec![97, 98], vec![255]]);
        return queries;
    }
    queries.push(draw.of(keys).clone());
    for _ in 0..2 {
        let key = draw.of(keys);
        queries.push(key[..draw.below(key.len() + 1)].to_vec());
    }
    let mut extended = draw.of(keys).clone();
    extended.push(draw.below(256) as u8);
    queries.push(extended);
    let mut joined = draw.of(keys).clone();
    joined.extend(draw.of(keys));
    queries.push(joined);
    let mut missed = draw.of(keys).clone();
    let at = draw.below(missed.len());
    missed[at] = if draw.below(2) == 0 { missed[at].wrapping_add(1) } else { missed[at].wrapping_sub(1) };
    queries.push(missed);
    queries.sort();
    queries.dedup();
    queries
}

fn replay(book: &mut Book, draw: &mut Draw, name: &str, pushes: &Entries) {
    let mut builder = TrieBuilder::new();
    for (key, value) in pushes {
        builder.push(key, *value);
    }
    let mut trie: Trie<u8, u32> = builder.build();
    let bits = louds_rs::last_bits();
    let nodes = nodes_of(&bits);
    let map: BTreeMap<_, _> = pushes.iter().cloned().collect();
    let keys: Vec<Vec<u8>> = map.into_keys().collect();

    book.title(name);
    // a pool with room for these records and no more, and up to four words that belong to none
    book.case('n', (5 * (nodes + 1) + draw.below(5)) as u32, &[], " done");
    for (key, value) in pushes {
        book.case('p', *value, key, " done");
    }
    book.case('u', 0, &[], &format!(" {nodes}"));
    book.case('b', 0, &[], &format!(" {nodes}"));
    book.case('i', 0, &[], &image(&trie, &bits));

    let queries = queries_for(draw, &keys);
    for query in &queries {
        searches(book, draw, &trie, query);
    }
    for query in queries.iter().step_by(3) {
        let mut here = trie.inc_search();
        let _ = here.query_until(query);
        let below = labels_below(&here);
        let label = if below.is_empty() || draw.below(3) == 0 { draw.below(256) as u8 } else { *draw.of(&below) };
        let rest = draw.of(&queries).clone();
        places(book, &trie, query, label, &rest);
    }
    for _ in 0..2 {
        resumed(book, &trie, 1 + draw.below(nodes + 1) as u64);
    }
    // keys with a single child: goto must leave them
    let mut single: Vec<u64> = keys.iter().map(|key| path_node(&trie, key)).collect();
    single.retain(|node| labels_below(&IncSearch::resume(&trie, LoudsNodeNum(*node))).len() == 1);
    for node in single.into_iter().take(3) {
        resumed(book, &trie, node);
    }

    for query in queries.iter().rev().step_by(3) {
        let value = draw.value();
        let had = trie.exact_match_mut(query).map(|old| std::mem::replace(old, value));
        book.case('s', value, query, &found(had));
        book.case('e', 0, query, &found(trie.exact_match(query).copied()));
    }
    book.case('i', 0, &[], &image(&trie, &bits));
    let given: Vec<(Vec<u8>, &u32)> = trie.predictive_search([]).collect();
    book.case('f', 0, &[], &listing(&trie, &[], given, false));
}

fn texts(entries: &[(&str, u32)]) -> Entries {
    entries.iter().map(|(key, value)| (key.as_bytes().to_vec(), *value)).collect()
}

/// All leading parts of a key, in steps.
fn tower(key: &[u8], step: usize) -> Entries {
    (1..=key.len()).step_by(step).map(|end| (key[..end].to_vec(), end as u32)).collect()
}

fn siblings(head: &[u8], labels: impl Iterator<Item = u8>) -> Entries {
    labels.map(|label| ([head, &[label]].concat(), label as u32)).collect()
}

fn words_of_two(labels: &[u8]) -> Entries {
    let pairs = labels.iter().flat_map(|first| labels.iter().map(|second| vec![*first, *second]));
    pairs.map(|key| (key.clone(), key[0] as u32 * 256 + key[1] as u32)).collect()
}

fn random(draw: &mut Draw, alphabet: &[u8], longest: usize, count: usize) -> Entries {
    (0..count).map(|_| (draw.key(alphabet, longest), draw.value())).collect()
}

fn catalogues(draw: &mut Draw) -> Vec<(String, Entries)> {
    let mut all: Vec<(String, Entries)> = vec![
        ("the empty map".into(), vec![]),
        ("A of the scope document".into(), texts(&[("ab", 7), ("b", 3)])),
        ("B of the scope document".into(), texts(&[("b", 3), ("ab", 7)])),
        (
            "five fruit keys".into(),
            texts(&[("a", 0), ("app", 1), ("apple", 2), ("better", 3), ("application", 4)]),
        ),
        ("a key again, with another value each time".into(), texts(&[("ab", 7), ("ab", 0), ("a", 5), ("ab", u32::MAX), ("a", 0)])),
        ("every value 0".into(), texts(&[("x", 0), ("xy", 0), ("xyz", 0), ("y", 0)])),
        ("keys that part at once".into(), texts(&[("left", 1), ("right", 2), ("up", 3), ("down", 4)])),
        ("keys that part late".into(), texts(&[("catalogue.a", 1), ("catalogue.b", 2), ("catalogue.c", 3)])),
        ("a key above a single child above a branch".into(), texts(&[("a", 1), ("abc", 2), ("abd", 3)])),
        ("a key with a single child that is a key".into(), texts(&[("a", 1), ("ab", 2), ("abc", 3)])),
    ];
    for label in [0, 127, 128, 255] {
        all.push((format!("one key of the byte {label}"), vec![(vec![label], if label < 128 { 0 } else { u32::MAX })]));
        all.push((format!("chain of the byte {label}"), vec![(vec![label; 9], 1), (vec![label; 4], 2)]));
    }
    // 2n+3 bits end just before and just after a word's end
    for length in [29, 30, 31, 32, 61, 62, 63, 64] {
        all.push((format!("chain of {length}"), vec![((0..length).map(|i| 3 * i as u8).collect(), length as u32)]));
    }
    all.push(("chain of 400".into(), vec![((0..400).map(|i| (i % 7) as u8).collect(), 400)]));
    for count in [30u8, 31, 63, 255] {
        all.push((format!("{count} siblings"), siblings(&[], (0..count).rev())));
    }
    all.push(("256 siblings at the root".into(), siblings(&[], 0..=255)));
    all.push(("256 siblings below two labels".into(), siblings(b"ab", (0..=255).map(|i: u8| i.wrapping_mul(77)))));
    all.push(("every leading part of a key".into(), tower(b"every leading part", 1)));
    all.push(("every second leading part of a key".into(), tower(b"every second leading part", 2)));
    all.push(("two towers that part".into(), [tower(b"tower one", 3), tower(b"tower two", 2)].concat()));
    all.push(("a comb".into(), (0..20usize).map(|i| ([&vec![98; i][..], b"a"].concat(), i as u32)).collect()));
    all.push(("all words of three letters over two".into(), (0..8u32).map(|i| ((0..3).map(|bit| 97 + (i >> bit & 1) as u8).collect(), i)).collect()));
    all.push(("edges of a byte".into(), random(draw, &[0, 127, 128, 255], 3, 24)));
    for (alphabet, longest, count) in [
        (&b"a"[..], 12, 4),
        (b"ab", 3, 4),
        (b"ab", 5, 8),
        (b"ab", 8, 12),
        (b"ab", 12, 6),
        (b"abc", 2, 6),
        (b"abc", 4, 10),
        (b"abc", 6, 20),
        (b"abc", 9, 5),
        (b"abcd", 3, 12),
        (b"abcd", 5, 25),
        (b"abcd", 10, 8),
        (b"\x00\xff", 4, 8),
        (b"\x00\xff", 7, 16),
        (b"\x00\x01\x02", 5, 14),
        (b"\x7f\x80", 6, 10),
        (b"\x7e\x7f\x80\x81", 4, 18),
        (b"0123456789", 4, 30),
        (b"0123456789", 2, 40),
        (b"eta oin", 8, 16),
        (b"eta oin", 14, 10),
    ] {
        let name = format!("{count} keys of at most {longest} over {} bytes, from {}", alphabet.len(), hex(&alphabet[..1]));
        all.push((name, random(draw, alphabet, longest, count)));
    }
    let bytes: Vec<u8> = (0..=255).collect();
    for (longest, count) in [(1, 40), (2, 30), (3, 60), (8, 12), (20, 6), (40, 3)] {
        all.push((format!("{count} keys of at most {longest} over all bytes"), random(draw, &bytes, longest, count)));
    }
    all.push(("wide: all words of two over 12 labels".into(), words_of_two(&[0, 1, 31, 32, 97, 98, 126, 127, 128, 129, 254, 255])));
    all.push(("deep: every leading part of 48 bytes".into(), tower(&(0..48).map(|i| 255 - 5 * i).collect::<Vec<u8>>(), 1)));
    all.push(("deep: 10 keys of at most 90 over two bytes".into(), random(draw, b"\x00\xff", 90, 10)));
    all.push(("wide and deep: 80 keys of at most 7 over four bytes".into(), random(draw, b"\x00\x61\x80\xff", 7, 80)));
    for turn in 1..=30 {
        let alphabet = draw.letters();
        let (longest, count) = (2 + draw.below(11), 2 + draw.below(23));
        let name = format!("draw {turn}: {count} keys of at most {longest} over the bytes {}", hex(&alphabet));
        all.push((name, random(draw, &alphabet, longest, count)));
    }
    all
}

fn main() {
    let mut names = std::env::args().skip(1);
    let cases = names.next().expect("the file for the cases");
    let answers = names.next().expect("the file for the answers");
    let mut book = Book::default();
    let mut draw = Draw(0x9e37_79b9_7f4a_7c15);
    book.title("Section 1: answered by trie-rs 0.4.2 over a stand-in for louds-rs");
    for (name, pushes) in catalogues(&mut draw) {
        replay(&mut book, &mut draw, &name, &pushes);
    }
    std::fs::write(cases, book.cases).expect("the cases are written");
    std::fs::write(answers, book.answers).expect("the answers are written");
}
