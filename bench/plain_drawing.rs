//! `plain_drawing DRAWING [--scans N]`: what `plc eval` does on a drawing without boxes, as a plain Rust program does it,
//! to be timed beside it. It refuses an ill-drawn one by its first fault, finds the networks, declares each name by its
//! first use, scans so many times (once, if none is given) with all inputs off, and writes the values after each scan.
//! It knows no boxes: a drawing with one is refused as ill drawn.
//!
//! Rows and columns count from 1, and a blank margin is around them.
use std::collections::HashMap;
use std::io::{self, BufWriter, Write};
use std::process::ExitCode;
use std::{env, fs};

const MOST_ROWS: usize = 2000;
const MOST_COLUMNS: usize = 240;
const MOST_ROWS_OF_NETWORK: usize = 200;

#[rustfmt::skip]
const RESERVED: [&str; 29] = [
    "SR", "RS", "CTU", "CTD", "CTUD", "TP", "TON", "TOF", "BOOL", "INT", "TIME", "TRUE", "FALSE", "PROGRAM",
    "END_PROGRAM", "VAR", "VAR_INPUT", "VAR_OUTPUT", "END_VAR", "RETAIN", "CONFIGURATION", "END_CONFIGURATION",
    "RESOURCE", "END_RESOURCE", "ON", "TASK", "WITH", "INTERVAL", "PRIORITY",
];

#[derive(Debug)]
enum FaultKind {
    NotAscii,
    TooLarge,
    NoLeftRail,
    BadMark,
    Crossing,
    NoSource,
    NameMissing,
    StrayName,
    Unattached,
    TooTall,
    UnknownName,
    WrongKind,
}

struct Fault {
    kind: FaultKind,
    row: usize,
    column: usize,
}

enum Failure {
    Refused(Fault),
    Io(io::Error),
}

impl From<Fault> for Failure {
    fn from(fault: Fault) -> Self {
        Failure::Refused(fault)
    }
}

impl From<io::Error> for Failure {
    fn from(error: io::Error) -> Self {
        Failure::Io(error)
    }
}

fn refuse<T>(kind: FaultKind, row: usize, column: usize) -> Result<T, Fault> {
    Err(Fault { kind, row, column })
}

#[derive(Clone, Copy, PartialEq)]
enum Mark {
    Blank,
    Word,
    LeftRail,
    RightRail,
    Wire,
    Join,
    Upright,
    Symbol,
    Unknown,
}

impl Mark {
    /// Whether state runs through it from left to right.
    fn is_line(self) -> bool {
        matches!(self, Mark::Wire | Mark::Join | Mark::Symbol)
    }

    fn is_vertical(self) -> bool {
        matches!(self, Mark::Join | Mark::Upright)
    }

    /// Whether state leaves it to the right.
    fn gives(self) -> bool {
        self == Mark::LeftRail || self.is_line()
    }
}

#[derive(Clone, Copy)]
enum ContactKind {
    Plain,
    Negated,
    Rise,
    Fall,
}

#[derive(Clone, Copy)]
enum CoilKind {
    Plain,
    Negated,
    Set,
    Reset,
    Rise,
    Fall,
}

#[derive(Clone, Copy)]
enum SymbolKind {
    Contact(ContactKind),
    Coil(CoilKind),
}

struct Symbol<'a> {
    row: usize,
    column: usize,
    kind: SymbolKind,
    name: Option<&'a str>,
}

struct Word<'a> {
    row: usize,
    column: usize,
    text: &'a str,
}

impl Word<'_> {
    fn end(&self) -> usize {
        self.column + self.text.len()
    }
}

/// What is drawn, mark by mark; symbols and words by their rows.
struct Drawing<'a> {
    left: usize,
    width: usize,
    height: usize,
    marks: Vec<Vec<Mark>>,
    symbols: Vec<Vec<Symbol<'a>>>,
    words: Vec<Vec<Word<'a>>>,
}

/// The rows of a text, without a carriage return and blanks at their ends.
fn rows_of(text: &str) -> Vec<&str> {
    let lines = text.split_terminator('\n');
    lines.map(|line| line.strip_suffix('\r').unwrap_or(line).trim_end_matches(' ')).collect()
}

fn check_signs(rows: &[&str]) -> Result<(), Fault> {
    for (k, row) in rows.iter().enumerate() {
        if let Some(at) = row.bytes().position(|sign| !(b' '..=b'~').contains(&sign)) {
            return refuse(FaultKind::NotAscii, k + 1, at + 1);
        }
    }
    Ok(())
}

fn check_size(rows: &[&str]) -> Result<(), Fault> {
    if let Some(k) = rows.iter().take(MOST_ROWS).position(|row| row.len() > MOST_COLUMNS) {
        return refuse(FaultKind::TooLarge, k + 1, MOST_COLUMNS + 1);
    }
    if rows.len() > MOST_ROWS {
        return refuse(FaultKind::TooLarge, MOST_ROWS + 1, 1);
    }
    Ok(())
}

/// The column of the left rail, in which nothing else stands.
fn left_rail(rows: &[&str]) -> Result<usize, Fault> {
    let Some(left) = rows.iter().filter_map(|row| row.bytes().position(|sign| sign != b' ')).min() else {
        return refuse(FaultKind::NoLeftRail, 1, 1);
    };
    let is_other = |row: &&str| row.as_bytes().get(left).is_some_and(|sign| !b" |+".contains(sign));
    match rows.iter().position(is_other) {
        Some(k) => refuse(FaultKind::NoLeftRail, k + 1, left + 1),
        None => Ok(left + 1),
    }
}

fn is_word_sign(sign: u8) -> bool {
    sign.is_ascii_alphanumeric() || b"_.#".contains(&sign)
}

fn contact_kind(sign: u8) -> Option<ContactKind> {
    match sign {
        b' ' => Some(ContactKind::Plain),
        b'/' => Some(ContactKind::Negated),
        b'P' | b'p' => Some(ContactKind::Rise),
        b'N' | b'n' => Some(ContactKind::Fall),
        _ => None,
    }
}

fn coil_kind(sign: u8) -> Option<CoilKind> {
    match sign {
        b' ' => Some(CoilKind::Plain),
        b'/' => Some(CoilKind::Negated),
        b'S' | b's' => Some(CoilKind::Set),
        b'R' | b'r' => Some(CoilKind::Reset),
        b'P' | b'p' => Some(CoilKind::Rise),
        b'N' | b'n' => Some(CoilKind::Fall),
        _ => None,
    }
}

/// The contact or coil that these signs begin with, behind this one.
fn symbol_kind(before: u8, signs: &[u8]) -> Option<SymbolKind> {
    match signs {
        [b'|', sign, b'|', ..] if before == b'-' || before == b'+' => contact_kind(*sign).map(SymbolKind::Contact),
        [b'(', sign, b')', ..] => coil_kind(*sign).map(SymbolKind::Coil),
        _ => None,
    }
}

fn mark_of(sign: u8) -> Mark {
    match sign {
        b' ' => Mark::Blank,
        b'-' => Mark::Wire,
        b'+' => Mark::Join,
        b'|' => Mark::Upright,
        _ => Mark::Unknown,
    }
}

impl<'a> Drawing<'a> {
    fn read(text: &'a str) -> Result<Self, Fault> {
        let rows = rows_of(text);
        check_signs(&rows)?;
        check_size(&rows)?;
        let left = left_rail(&rows)?;
        let width = rows.iter().map(|row| row.len()).max().unwrap_or(0);
        let height = rows.len();
        let marks = vec![vec![Mark::Blank; width + 2]; height + 2];
        let (mut symbols, mut words) = (Vec::new(), Vec::new());
        symbols.resize_with(height + 2, Vec::new);
        words.resize_with(height + 2, Vec::new);
        let mut drawing = Drawing { left, width, height, marks, symbols, words };
        for (k, row) in rows.iter().enumerate() {
            drawing.read_row(k + 1, row);
        }
        drawing.mark_right_rail();
        drawing.refuse_where(FaultKind::BadMark, |it, row, column| it.marks[row][column] == Mark::Unknown)?;
        drawing.refuse_where(FaultKind::Crossing, Self::is_crossing)?;
        drawing.refuse_where(FaultKind::NoSource, Self::lacks_source)?;
        drawing.name_symbols()?;
        Ok(drawing)
    }

    fn read_row(&mut self, row: usize, text: &'a str) {
        let signs = text.as_bytes();
        let mut at = self.left - 1;
        if at < signs.len() && signs[at] != b' ' {
            self.marks[row][self.left] = Mark::LeftRail;
        }
        at += 1;
        while at < signs.len() {
            let column = at + 1;
            if let Some(kind) = symbol_kind(signs[at - 1], &signs[at..]) {
                self.symbols[row].push(Symbol { row, column, kind, name: None });
                self.marks[row][column..column + 3].fill(Mark::Symbol);
                at += 3;
            } else if is_word_sign(signs[at]) {
                let length = signs[at..].iter().take_while(|sign| is_word_sign(**sign)).count();
                self.words[row].push(Word { row, column, text: &text[at..at + length] });
                self.marks[row][column..column + length].fill(Mark::Word);
                at += length;
            } else {
                self.marks[row][column] = mark_of(signs[at]);
                at += 1;
            }
        }
    }

    /// The last column is a right rail if nothing else stands there.
    fn mark_right_rail(&mut self) {
        let last = self.width;
        if last > self.left && self.marks.iter().all(|row| row[last] == Mark::Blank || row[last].is_vertical()) {
            for row in self.marks.iter_mut().filter(|row| row[last] != Mark::Blank) {
                row[last] = Mark::RightRail;
            }
        }
    }

    fn refuse_where(&self, kind: FaultKind, is_faulty: impl Fn(&Self, usize, usize) -> bool) -> Result<(), Fault> {
        for row in 1..=self.height {
            for column in 1..=self.width {
                if is_faulty(self, row, column) {
                    return refuse(kind, row, column);
                }
            }
        }
        Ok(())
    }

    fn is_crossing(&self, row: usize, column: usize) -> bool {
        let marks = &self.marks;
        marks[row][column] == Mark::Upright
            && (marks[row][column - 1].is_line()
                || marks[row][column + 1].is_line()
                || !marks[row - 1][column].is_vertical()
                || !marks[row + 1][column].is_vertical())
    }

    fn lacks_source(&self, row: usize, column: usize) -> bool {
        match self.marks[row][column] {
            Mark::Wire | Mark::Symbol => !self.is_entered(row, column),
            Mark::Join | Mark::Upright => {
                !self.marks[row - 1][column].is_vertical() && !self.has_entered_join(row, column)
            }
            _ => false,
        }
    }

    /// Whether state comes to a place from its left.
    fn is_entered(&self, row: usize, column: usize) -> bool {
        self.marks[row][column].is_line() && self.marks[row][column - 1].gives()
    }

    /// Whether state enters a join of the upright whose topmost place this is.
    fn has_entered_join(&self, top: usize, column: usize) -> bool {
        let upright = (top..).take_while(|row| self.marks[*row][column].is_vertical());
        upright.into_iter().any(|row| self.is_entered(row, column))
    }

    /// Gives each symbol the word above it.
    fn name_symbols(&mut self) -> Result<(), Fault> {
        let mut first_stray = None;
        for (words, symbols) in self.words.iter().zip(&mut self.symbols[1..]) {
            for word in words {
                if !name_below(word, symbols) && first_stray.is_none() {
                    first_stray = Some(word);
                }
            }
        }
        if let Some(symbol) = self.symbols.iter().flatten().find(|symbol| symbol.name.is_none()) {
            return refuse(FaultKind::NameMissing, symbol.row, symbol.column);
        }
        match first_stray {
            Some(word) => refuse(FaultKind::StrayName, word.row, word.column),
            None => Ok(()),
        }
    }
}

/// Names the symbols of the row below that the word is above; whether it is the name of one alone.
fn name_below<'a>(word: &Word<'a>, symbols: &mut [Symbol<'a>]) -> bool {
    let from = symbols.partition_point(|symbol| symbol.column + 3 <= word.column);
    let to = symbols.partition_point(|symbol| symbol.column < word.end());
    let named = &mut symbols[from..to];
    let is_first = named.iter().all(|symbol| symbol.name.is_none());
    for symbol in named.iter_mut() {
        symbol.name.get_or_insert(word.text);
    }
    named.len() == 1 && is_first && is_name(word.text)
}

fn is_identifier(text: &str) -> bool {
    let parts = text.strip_prefix('_').unwrap_or(text).split('_');
    !text.starts_with(|sign: char| sign.is_ascii_digit())
        && parts.into_iter().all(|part| !part.is_empty() && part.bytes().all(|sign| sign.is_ascii_alphanumeric()))
}

fn is_plain_name(text: &str) -> bool {
    is_identifier(text) && !RESERVED.iter().any(|word| word.eq_ignore_ascii_case(text))
}

/// A plain name, or two of them joined by a dot.
fn is_name(text: &str) -> bool {
    match text.split_once('.') {
        Some((first, second)) => is_plain_name(first) && is_plain_name(second),
        None => is_plain_name(text),
    }
}

#[derive(Clone, Copy)]
enum ElementKind {
    Wire,
    Join,
    Upright,
    /// By its number among all symbols.
    Symbol(usize),
}

#[derive(Clone, Copy)]
struct Element {
    row: usize,
    column: usize,
    kind: ElementKind,
}

impl Element {
    fn is_vertical(&self) -> bool {
        matches!(self.kind, ElementKind::Join | ElementKind::Upright)
    }
}

/// Sets of numbers that are united step by step; the least number of a set stands for it.
struct Sets {
    parents: Vec<usize>,
}

impl Sets {
    fn add(&mut self) -> usize {
        self.parents.push(self.parents.len());
        self.parents.len() - 1
    }

    fn find(&mut self, mut number: usize) -> usize {
        while self.parents[number] != number {
            self.parents[number] = self.parents[self.parents[number]];
            number = self.parents[number];
        }
        number
    }

    fn unite(&mut self, one: usize, other: usize) {
        let (one, other) = (self.find(one), self.find(other));
        self.parents[one.max(other)] = one.min(other);
    }
}

struct Network {
    elements: Vec<Element>,
    /// The topmost and the lowest row.
    top: usize,
    bottom: usize,
    /// The topmost row in which it meets the left rail.
    rail_row: Option<usize>,
}

/// The element whose first place has this mark, if one begins there, and its width; the next symbol has this number.
fn element_kind(mark: Mark, symbol: usize) -> Option<(ElementKind, usize)> {
    match mark {
        Mark::Wire => Some((ElementKind::Wire, 1)),
        Mark::Join => Some((ElementKind::Join, 1)),
        Mark::Upright => Some((ElementKind::Upright, 1)),
        Mark::Symbol => Some((ElementKind::Symbol(symbol), 3)),
        _ => None,
    }
}

/// The elements by row and column, those that are joined in one set.
fn elements_of(drawing: &Drawing) -> (Vec<Element>, Sets) {
    let (mut elements, mut sets) = (Vec::new(), Sets { parents: Vec::new() });
    let mut symbols = 0;
    let mut above = vec![0; drawing.width + 1];
    for row in 1..=drawing.height {
        let marks = &drawing.marks[row];
        let mut column = drawing.left + 1;
        while column <= drawing.width {
            let Some((kind, width)) = element_kind(marks[column], symbols) else {
                column += 1;
                continue;
            };
            let number = sets.add();
            if marks[column].is_line() && marks[column - 1].is_line() {
                sets.unite(number - 1, number);
            }
            if marks[column].is_vertical() && drawing.marks[row - 1][column].is_vertical() {
                sets.unite(above[column], number);
            }
            above[column] = number;
            symbols += usize::from(marks[column] == Mark::Symbol);
            elements.push(Element { row, column, kind });
            column += width;
        }
    }
    (elements, sets)
}

/// The networks by the rows in which they meet the left rail, their elements by column and row.
fn networks_of(drawing: &Drawing) -> Result<Vec<Network>, Fault> {
    let (elements, mut sets) = elements_of(drawing);
    let mut networks: Vec<Network> = Vec::new();
    let mut numbers = vec![0; elements.len()];
    for (k, element) in elements.into_iter().enumerate() {
        let first = sets.find(k);
        let row = element.row;
        if first == k {
            numbers[k] = networks.len();
            networks.push(Network { elements: Vec::new(), top: row, bottom: row, rail_row: None });
        }
        let network = &mut networks[numbers[first]];
        network.bottom = row;
        if element.column == drawing.left + 1 && drawing.is_entered(row, element.column) {
            network.rail_row.get_or_insert(row);
        }
        network.elements.push(element);
    }
    check_networks(&networks)?;
    networks.sort_by_key(|network| network.rail_row);
    for network in &mut networks {
        network.elements.sort_by_key(|element| (element.column, element.row));
    }
    Ok(networks)
}

/// Refuses networks, each with its topmost element first.
fn check_networks(networks: &[Network]) -> Result<(), Fault> {
    if let Some(it) = networks.iter().find(|it| it.rail_row.is_none()) {
        return refuse(FaultKind::Unattached, it.elements[0].row, it.elements[0].column);
    }
    if let Some(it) = networks.iter().find(|it| it.bottom - it.top >= MOST_ROWS_OF_NETWORK) {
        return refuse(FaultKind::TooTall, it.elements[0].row, it.elements[0].column);
    }
    Ok(())
}

/// The variables by their first use, and the place of each by its name in small letters.
struct Variables {
    names: Vec<String>,
    places: HashMap<String, usize>,
}

impl Variables {
    fn of(symbols: &[&Symbol]) -> Self {
        let mut variables = Variables { names: Vec::new(), places: HashMap::new() };
        for name in symbols.iter().filter_map(|symbol| symbol.name).filter(|name| !name.contains('.')) {
            variables.places.entry(name.to_ascii_lowercase()).or_insert_with(|| {
                variables.names.push(name.to_string());
                variables.names.len() - 1
            });
        }
        variables
    }

    fn place(&self, name: &str) -> Option<usize> {
        self.places.get(&name.to_ascii_lowercase()).copied()
    }

    /// The place of each symbol's variable. Without boxes there is nothing that a name with a dot can mean.
    fn bind(&self, symbols: &[&Symbol]) -> Result<Vec<usize>, Fault> {
        let mut places = Vec::with_capacity(symbols.len());
        let mut first_dotted = None;
        for symbol in symbols {
            let name = symbol.name.unwrap_or_default();
            match (self.place(name), name.split_once('.')) {
                (Some(place), _) => places.push(place),
                (None, Some((first, _))) if self.place(first).is_some() => first_dotted = first_dotted.or(Some(symbol)),
                (None, _) => return refuse(FaultKind::UnknownName, symbol.row, symbol.column),
            }
        }
        match first_dotted {
            Some(symbol) => refuse(FaultKind::WrongKind, symbol.row, symbol.column),
            None => Ok(places),
        }
    }
}

/// What is done in a network, column by column; each row has a link, which tells whether state comes to its next place.
enum Step {
    Rail {
        row: usize,
    },
    Contact {
        row: usize,
        kind: ContactKind,
        place: usize,
        memory: usize,
    },
    Coil {
        row: usize,
        kind: CoilKind,
        place: usize,
        memory: usize,
    },
    /// All rows that it joins get what comes to one of these.
    Upright {
        entered: Vec<usize>,
        joined: Vec<usize>,
    },
}

struct Ladder {
    names: Vec<String>,
    networks: Vec<Vec<Step>>,
    symbols: usize,
    rows: usize,
}

impl Ladder {
    fn build(drawing: &Drawing) -> Result<Self, Fault> {
        let networks = networks_of(drawing)?;
        let symbols: Vec<&Symbol> = drawing.symbols.iter().flatten().collect();
        let variables = Variables::of(&symbols);
        let places = variables.bind(&symbols)?;
        let rows = networks.iter().map(|it| it.bottom - it.top + 1).max().unwrap_or(0);
        let networks = networks.iter().map(|it| steps_of(drawing, it, &symbols, &places)).collect();
        Ok(Ladder { names: variables.names, networks, symbols: symbols.len(), rows })
    }
}

fn steps_of(drawing: &Drawing, network: &Network, symbols: &[&Symbol], places: &[usize]) -> Vec<Step> {
    let mut steps = Vec::new();
    let is_one_upright =
        |a: &Element, b: &Element| a.is_vertical() && b.is_vertical() && a.column == b.column && a.row + 1 == b.row;
    for group in network.elements.chunk_by(is_one_upright) {
        for element in group {
            if element.column == drawing.left + 1 && drawing.is_entered(element.row, element.column) {
                steps.push(Step::Rail { row: element.row - network.top });
            }
        }
        match group[0].kind {
            ElementKind::Wire => {}
            ElementKind::Join | ElementKind::Upright => steps.push(upright_step(drawing, network.top, group)),
            ElementKind::Symbol(number) => {
                let (row, place, memory) = (group[0].row - network.top, places[number], number);
                steps.push(match symbols[number].kind {
                    SymbolKind::Contact(kind) => Step::Contact { row, kind, place, memory },
                    SymbolKind::Coil(kind) => Step::Coil { row, kind, place, memory },
                });
            }
        }
    }
    steps
}

fn upright_step(drawing: &Drawing, top: usize, upright: &[Element]) -> Step {
    let joins = upright.iter().filter(|element| matches!(element.kind, ElementKind::Join));
    let entered = joins.clone().filter(|element| drawing.is_entered(element.row, element.column));
    Step::Upright { entered: entered.map(|it| it.row - top).collect(), joined: joins.map(|it| it.row - top).collect() }
}

struct State {
    values: Vec<bool>,
    /// What each edge contact or coil saw last.
    memories: Vec<bool>,
    links: Vec<bool>,
    stored: Vec<(usize, bool)>,
}

impl State {
    fn new(ladder: &Ladder) -> Self {
        State {
            values: vec![false; ladder.names.len()],
            memories: vec![false; ladder.symbols],
            links: vec![false; ladder.rows],
            stored: Vec::new(),
        }
    }

    fn scan(&mut self, ladder: &Ladder) {
        for network in &ladder.networks {
            for step in network {
                self.step(step);
            }
            for (place, value) in self.stored.drain(..) {
                self.values[place] = value;
            }
        }
    }

    fn step(&mut self, step: &Step) {
        match step {
            Step::Rail { row } => self.links[*row] = true,
            Step::Contact { row, kind, place, memory } => {
                let conducts = self.conducts(*kind, *place, *memory);
                self.links[*row] &= conducts;
            }
            Step::Coil { row, kind, place, memory } => self.store(*kind, *place, *memory, self.links[*row]),
            Step::Upright { entered, joined } => {
                let is_on = entered.iter().any(|row| self.links[*row]);
                for row in joined {
                    self.links[*row] = is_on;
                }
            }
        }
    }

    fn conducts(&mut self, kind: ContactKind, place: usize, memory: usize) -> bool {
        let value = self.values[place];
        match kind {
            ContactKind::Plain => value,
            ContactKind::Negated => !value,
            ContactKind::Rise => !self.exchange(memory, value) && value,
            ContactKind::Fall => self.exchange(memory, value) && !value,
        }
    }

    /// Notes what a coil stores, which is seen only when its network is done.
    fn store(&mut self, kind: CoilKind, place: usize, memory: usize, link: bool) {
        let value = match kind {
            CoilKind::Plain => link,
            CoilKind::Negated => !link,
            CoilKind::Set | CoilKind::Reset if !link => return,
            CoilKind::Set => true,
            CoilKind::Reset => false,
            CoilKind::Rise => !self.exchange(memory, link) && link,
            CoilKind::Fall => self.exchange(memory, link) && !link,
        };
        self.stored.push((place, value));
    }

    /// The value of a memory, which gets this one.
    fn exchange(&mut self, memory: usize, value: bool) -> bool {
        std::mem::replace(&mut self.memories[memory], value)
    }
}

fn tell(out: &mut impl Write, names: &[String], values: &[bool]) -> io::Result<()> {
    for (k, (name, value)) in names.iter().zip(values).enumerate() {
        let blank = if k == 0 { "" } else { " " };
        write!(out, "{blank}{name}={}", u8::from(*value))?;
    }
    writeln!(out)
}

fn eval(path: &str, scans: usize) -> Result<(), Failure> {
    let bytes = fs::read(path)?;
    let ladder = Ladder::build(&Drawing::read(&String::from_utf8_lossy(&bytes))?)?;
    let mut state = State::new(&ladder);
    let mut out = BufWriter::new(io::stdout().lock());
    for _ in 0..scans {
        state.scan(&ladder);
        tell(&mut out, &ladder.names, &state.values)?;
    }
    out.flush()?;
    Ok(())
}

fn command(words: &[String]) -> Option<(&str, usize)> {
    match words {
        [path] => Some((path, 1)),
        [path, option, scans] if option == "--scans" => Some((path, scans.parse().ok()?)),
        _ => None,
    }
}

fn main() -> ExitCode {
    let words: Vec<String> = env::args().skip(1).collect();
    let Some((path, scans)) = command(&words) else {
        eprintln!("plain_drawing DRAWING [--scans N]");
        return ExitCode::from(2);
    };
    match eval(path, scans) {
        Ok(()) => ExitCode::SUCCESS,
        Err(Failure::Refused(fault)) => {
            eprintln!("{path}:{}:{}: {:?}", fault.row, fault.column, fault.kind);
            ExitCode::from(1)
        }
        Err(Failure::Io(error)) => {
            eprintln!("{path}: {error}");
            ExitCode::from(3)
        }
    }
}
