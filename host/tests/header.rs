//! The names of `include/cuongphemi.h`: each stands for the number that the host has for it, and none is left out.
//! Names are written here without their CUONGPHEMI_ in front.

use cuongphemi_host::boundary::*;
use cuongphemi_host::library::Library;
use cuongphemi_host::model::*;
use std::cell::RefCell;
use std::collections::{BTreeMap, BTreeSet};

/// The include guard and the version: no number of theirs is the host's.
const NOT_COMPARED: [&str; 5] = ["H", "VERSION", "VERSION_MAJOR", "VERSION_MINOR", "VERSION_PATCH"];

#[test]
fn every_name_is_the_hosts_number() {
    let h = Header::read();
    let groups = [
        sizes,
        register_words,
        state_words,
        frame_words,
        register_fields,
        register_constructors,
        register_values,
        filter_elements,
        filter_types,
        filter_actions,
        limits,
        record,
        section_numbers,
    ];
    groups.into_iter().for_each(|group| group(&h));
    for calls in [&Model as &dyn Calls, &Library] {
        start_numbers(&h, calls);
        memory_most(&h, calls);
        named_bits(&h, calls);
        call_numbers(&h, calls);
        received(&h, calls);
        priority(&h, calls);
        buffer_bits(&h, calls);
        sent(&h, calls);
        status(&h, calls);
    }
    let names = h.macros.keys().map(String::as_str).filter(|name| !NOT_COMPARED.contains(name));
    let left_out: Vec<&str> = names.filter(|name| !h.compared.borrow().contains(*name)).collect();
    assert_eq!(left_out, Vec::<&str>::new(), "names that no test compares");
}

// ------------------------------------------------------------------------------------------------------
// The header as text
// ------------------------------------------------------------------------------------------------------

/// What a name stands for. A constant has no parameters.
struct Macro {
    parameters: Vec<String>,
    body: Vec<String>,
}

struct Header {
    macros: BTreeMap<String, Macro>,
    /// The names that were asked for.
    compared: RefCell<BTreeSet<String>>,
}

/// Names and numbers, and operators of one or two signs.
fn tokens(text: &str) -> Vec<String> {
    let in_word = |c: char| c.is_ascii_alphanumeric() || c == '_';
    let mut tokens = Vec::new();
    let mut rest = text.trim_start();
    while !rest.is_empty() {
        let word = rest.find(|c| !in_word(c)).unwrap_or(rest.len());
        let sign =
            if ["##", "<<", ">>", "<=", "!=", "==", "&&"].iter().any(|two| rest.starts_with(two)) { 2 } else { 1 };
        let (token, after) = rest.split_at(if word > 0 { word } else { sign });
        tokens.push(token.to_string());
        rest = after.trim_start();
    }
    tokens
}

impl Header {
    fn read() -> Header {
        let path = concat!(env!("CARGO_MANIFEST_DIR"), "/../include/cuongphemi.h");
        let mut text = std::fs::read_to_string(path).expect("the header is there");
        while let Some(from) = text.find("/*") {
            let length = text[from..].find("*/").expect("a comment ends") + 2;
            text.replace_range(from..from + length, " ");
        }
        // Numbers are worked out in 64 bits, where the type that C gives them makes no difference.
        let text = ["(uint32_t)", "(uint64_t)", "UINT32_C"]
            .into_iter()
            .fold(text.replace("\\\n", " "), |text, typed| text.replace(typed, ""));
        let mut macros = BTreeMap::new();
        for line in text.replace("CUONGPHEMI_", "").lines().filter_map(|line| line.strip_prefix("#define ")) {
            let (head, body) = match (line.find(' '), line.find('(')) {
                (Some(space), Some(open)) if open < space => line.split_at(line.find(')').unwrap() + 1),
                (Some(space), _) => line.split_at(space),
                (None, _) => (line, ""),
            };
            let head = tokens(head);
            let parameters = head[1..].iter().filter(|token| !["(", ",", ")"].contains(&token.as_str()));
            let meant = Macro { parameters: parameters.cloned().collect(), body: tokens(body) };
            assert!(macros.insert(head[0].clone(), meant).is_none(), "{} is defined once", head[0]);
        }
        Header { macros, compared: RefCell::default() }
    }

    /// The tokens with every name replaced by what it stands for.
    fn expanded(&self, tokens: &[String]) -> Vec<String> {
        let Some((first, mut rest)) = tokens.split_first() else {
            return Vec::new();
        };
        let Some(meant) = self.macros.get(first) else {
            return [vec![first.clone()], self.expanded(rest)].concat();
        };
        let mut given: Vec<Vec<String>> = Vec::new();
        if !meant.parameters.is_empty() {
            let mut depth = 0;
            let end = rest.iter().position(|token| {
                match token.as_str() {
                    "(" => depth += 1,
                    ")" => depth -= 1,
                    _ => {}
                }
                if depth == 1 && (token == "(" || token == ",") {
                    given.push(Vec::new());
                } else if depth > 0 {
                    given.last_mut().expect("an argument began").push(token.clone());
                }
                depth == 0
            });
            rest = &rest[end.expect("the arguments end") + 1..];
            assert_eq!(given.len(), meant.parameters.len(), "arguments of {first}");
        }
        let mut body: Vec<String> = Vec::new();
        let mut pasting = false;
        for token in &meant.body {
            if token == "##" {
                pasting = true;
            } else if pasting {
                body.last_mut().expect("something to paste to").push_str(token);
                pasting = false;
            } else {
                match meant.parameters.iter().position(|parameter| parameter == token) {
                    Some(nth) => body.extend_from_slice(&given[nth]),
                    None => body.push(token.clone()),
                }
            }
        }
        [self.expanded(&body), self.expanded(rest)].concat()
    }

    /// The number of a name or of an expression in names, all of which count as compared.
    fn number(&self, text: &str) -> u32 {
        let asked = tokens(text);
        self.compared.borrow_mut().extend(asked.iter().filter(|token| self.macros.contains_key(*token)).cloned());
        let tokens = self.expanded(&asked);
        let mut expression = Expression { tokens: &tokens };
        let number = expression.value();
        assert!(expression.tokens.is_empty(), "{text} is read to its end");
        u32::try_from(number).unwrap_or_else(|_| panic!("{text} is {number}"))
    }

    /// That an expression has the host's number.
    fn same(&self, text: &str, host: u32) {
        assert_eq!(self.number(text), host, "{text}");
    }

    /// That a name is the lowest of these values with which the host does this.
    fn lowest(&self, name: &str, mut values: std::ops::Range<u32>, does: impl FnMut(&u32) -> bool) {
        assert_eq!(Some(self.number(name)), values.find(does), "{name}");
    }

    /// That words of the host have this one at the named place.
    fn place(&self, text: &str, words: &[u32], value: u32) {
        assert_eq!(words.get(self.number(text) as usize), Some(&value), "the word at {text} in {words:x?}");
    }

    /// A macro's expression for each argument that alone is one too large for its field, the others being 0. The
    /// fields are named after the parameters.
    fn with_one_too_large(&self, name: &str, fields: &str) -> Vec<String> {
        let parameters = &self.macros[name].parameters;
        let argument = |at: usize, nth: usize| match at == nth {
            true => format!("{fields}_{}_MASK + 1", parameters[at].to_uppercase()),
            false => "0".to_string(),
        };
        let arguments = |nth| (0..parameters.len()).map(|at| argument(at, nth)).collect::<Vec<_>>().join(", ");
        (0..parameters.len()).map(|nth| format!("{name}({})", arguments(nth))).collect()
    }

    /// That a field is where the host reads it, and as wide.
    fn field(&self, name: &str, read: impl Fn(u32) -> u32) {
        let [shift, mask] = ["SHIFT", "MASK"].map(|what| self.number(&format!("{name}_{what}")));
        assert_eq!(read(1u32.checked_shl(shift).unwrap_or(0)), 1, "{name}_SHIFT");
        assert_eq!(read(u32::MAX), mask, "{name}_MASK");
        // A value fits that the host reads back; any other, of up to 64 bits or below 0, makes a word of ones.
        for value in [0, 1, i64::from(mask), i64::from(mask) + 1, 1 << 32, (1 << 32) + 1, -1] {
            let put = (value as u32).checked_shl(shift).unwrap_or(0);
            let fits = i64::from(read(put)) == value;
            let value = if value < 0 { "0 - 1".to_string() } else { value.to_string() };
            self.same(&format!("FITS({value}, {name})"), u32::from(fits));
            self.same(&format!("PUT({value}, {name})"), if fits { put } else { u32::MAX });
        }
        self.same(&format!("TAKE(0x97531357, {name})"), read(0x9753_1357));
    }
}

/// C's operators that the header uses, those that bind least first.
const BINARY: [&[&str]; 8] = [&["&&"], &["|"], &["&"], &["==", "!="], &["<="], &["<<", ">>"], &["+", "-"], &["*"]];

/// What is left of an expression.
struct Expression<'a> {
    tokens: &'a [String],
}

impl Expression<'_> {
    fn next(&mut self) -> &str {
        let (first, rest) = self.tokens.split_first().expect("the expression goes on");
        self.tokens = rest;
        first
    }

    /// Takes the next token if it is one of these.
    fn next_of(&mut self, these: &[&'static str]) -> Option<&'static str> {
        let found = these.iter().find(|this| self.tokens.first().is_some_and(|token| token == *this))?;
        self.next();
        Some(found)
    }

    fn value(&mut self) -> i64 {
        let condition = self.operation(0);
        if self.next_of(&["?"]).is_none() {
            return condition;
        }
        let yes = self.value();
        assert_eq!(self.next(), ":");
        let no = self.value();
        if condition != 0 {
            yes
        } else {
            no
        }
    }

    fn operation(&mut self, level: usize) -> i64 {
        let Some(operators) = BINARY.get(level) else {
            return self.single();
        };
        let mut left = self.operation(level + 1);
        while let Some(operator) = self.next_of(operators) {
            let right = self.operation(level + 1);
            left = match operator {
                "&&" => i64::from(left != 0 && right != 0),
                "|" => left | right,
                "&" => left & right,
                "==" => i64::from(left == right),
                "!=" => i64::from(left != right),
                "<=" => i64::from(left <= right),
                "<<" => left << right,
                ">>" => left >> right,
                "+" => left + right,
                "-" => left - right,
                _ => left * right,
            };
        }
        left
    }

    fn single(&mut self) -> i64 {
        match self.next() {
            "~" => !self.single(),
            "!" => i64::from(self.single() == 0),
            "(" => {
                let value = self.value();
                assert_eq!(self.next(), ")");
                value
            }
            number => {
                let digits = number.trim_end_matches('u');
                let read = match digits.strip_prefix("0x") {
                    Some(hex) => i64::from_str_radix(hex, 16),
                    None => digits.parse(),
                };
                read.unwrap_or_else(|_| panic!("{number} is no number"))
            }
        }
    }
}

// ------------------------------------------------------------------------------------------------------
// Words of buffers
// ------------------------------------------------------------------------------------------------------

fn sizes(h: &Header) {
    h.same("STATE_WORDS", STATE_WORDS as u32);
    h.same("RECORD_WORDS", STATUS_WORDS as u32);
    h.same("REGISTER_WORDS", REGISTER_WORDS as u32);
    h.same("FRAME_WORDS", FRAME_WORDS as u32);
    h.same("ANSWER_WORDS", ANSWER_WORDS as u32);
    h.same("OUTPUT_BYTES", OUTPUT_BYTES as u32);
}

/// Registers of which no two words are the same, but for the two that say yes or no.
const DISTINCT: Registers = Registers {
    sidfc: 100,
    xidfc: 101,
    rxf0c: 102,
    rxf1c: 103,
    rxbc: 104,
    rxesc: 105,
    txefc: 106,
    txbc: 107,
    txesc: 108,
    gfc: 109,
    xidam: 110,
    rx_buffers: 111,
    fd_on: true,
    rate_switch_on: false,
    memory_words: 112,
};

fn register_words(h: &Header) {
    let r = DISTINCT;
    let mut words = [0; REGISTER_WORDS];
    pack_registers(&r, &mut words);
    h.place("REGISTER_SIDFC", &words, r.sidfc);
    h.place("REGISTER_XIDFC", &words, r.xidfc);
    h.place("REGISTER_RXF0C", &words, r.rxf0c);
    h.place("REGISTER_RXF1C", &words, r.rxf1c);
    h.place("REGISTER_RXBC", &words, r.rxbc);
    h.place("REGISTER_RXESC", &words, r.rxesc);
    h.place("REGISTER_TXEFC", &words, r.txefc);
    h.place("REGISTER_TXBC", &words, r.txbc);
    h.place("REGISTER_TXESC", &words, r.txesc);
    h.place("REGISTER_GFC", &words, r.gfc);
    h.place("REGISTER_XIDAM", &words, r.xidam);
    h.place("REGISTER_RX_BUFFERS", &words, r.rx_buffers);
    h.place("REGISTER_FD_ON", &words, h.number("YES"));
    h.place("REGISTER_RATE_SWITCH_ON", &words, h.number("NO"));
    h.place("REGISTER_MEMORY_WORDS", &words, r.memory_words);
    pack_registers(&Registers { fd_on: false, rate_switch_on: true, ..r }, &mut words);
    h.place("REGISTER_FD_ON", &words, h.number("NO"));
    h.place("REGISTER_RATE_SWITCH_ON", &words, h.number("YES"));
}

fn state_words(h: &Header) {
    let ring = |oldest| Ring { oldest, fill: oldest + 1 };
    let s = State {
        registers: DISTINCT,
        fifo0: ring(200),
        fifo1: ring(202),
        events: ring(204),
        shared: ring(206),
        new_data: 208 | 209 << 32,
        pending: 210,
        sent: 211,
        cancelled: 212,
    };
    let mut words = [0; STATE_WORDS];
    pack_state(&s, &mut words);
    h.place("STATE_FIFO0_OLDEST", &words, s.fifo0.oldest);
    h.place("STATE_FIFO0_FILL", &words, s.fifo0.fill);
    h.place("STATE_FIFO1_OLDEST", &words, s.fifo1.oldest);
    h.place("STATE_FIFO1_FILL", &words, s.fifo1.fill);
    h.place("STATE_EVENTS_OLDEST", &words, s.events.oldest);
    h.place("STATE_EVENTS_FILL", &words, s.events.fill);
    h.place("STATE_SHARED_OLDEST", &words, s.shared.oldest);
    h.place("STATE_SHARED_FILL", &words, s.shared.fill);
    h.place("STATE_NEW_DATA_LOW", &words, 208);
    h.place("STATE_NEW_DATA_HIGH", &words, 209);
    h.place("STATE_PENDING", &words, s.pending);
    h.place("STATE_SENT", &words, s.sent);
    h.place("STATE_CANCELLED", &words, s.cancelled);
    // The state begins with the registers, under the same names.
    h.place("REGISTER_SIDFC", &words, DISTINCT.sidfc);
    h.place("REGISTER_RX_BUFFERS", &words, DISTINCT.rx_buffers);
    h.place("REGISTER_MEMORY_WORDS", &words, DISTINCT.memory_words);
}

fn frame_words(h: &Header) {
    let none = Frame { id: 100, dlc: 101, ..Frame::default() };
    let marked = [
        ("FRAME_XTD", Frame { xtd: true, ..none }),
        ("FRAME_RTR", Frame { rtr: true, ..none }),
        ("FRAME_FDF", Frame { fdf: true, ..none }),
        ("FRAME_BRS", Frame { brs: true, ..none }),
        ("FRAME_ESI", Frame { esi: true, ..none }),
    ];
    for (name, frame) in marked {
        let words = words_of(&frame);
        h.place("FRAME_ID", &words, frame.id);
        h.place("FRAME_DLC", &words, frame.dlc);
        h.place(name, &words, h.number("YES"));
        assert_eq!(words[1..6].iter().sum::<u32>(), 1, "{name} alone is set");
    }
}

fn words_of(frame: &Frame) -> [u32; FRAME_WORDS] {
    let mut words = [0; FRAME_WORDS];
    pack_frame(frame, &mut words);
    words
}

// ------------------------------------------------------------------------------------------------------
// Registers
// ------------------------------------------------------------------------------------------------------

/// The start of a section as the host reads it, of registers that have a count for it.
fn start_of(number: usize, registers: Registers) -> u32 {
    let r = registers;
    let count = 1 << 16;
    let counted = match number {
        STANDARD_FILTERS => Registers { sidfc: r.sidfc | count, ..r },
        EXTENDED_FILTERS => Registers { xidfc: r.xidfc | count, ..r },
        RX_FIFO_0 => Registers { rxf0c: r.rxf0c | count, ..r },
        RX_FIFO_1 => Registers { rxf1c: r.rxf1c | count, ..r },
        RX_BUFFERS => Registers { rx_buffers: 1, ..r },
        TX_EVENTS => Registers { txefc: r.txefc | count, ..r },
        _ => Registers { txbc: r.txbc | count, ..r },
    };
    section(&counted, number).start
}

fn register_fields(h: &Header) {
    let sidfc = |sidfc| Registers { sidfc, ..Registers::default() };
    h.field("SIDFC_COUNT", |word| sidfc(word).standard_filters());
    h.field("SIDFC_START", |word| start_of(STANDARD_FILTERS, sidfc(word)));
    let xidfc = |xidfc| Registers { xidfc, ..Registers::default() };
    h.field("XIDFC_COUNT", |word| xidfc(word).extended_filters());
    h.field("XIDFC_START", |word| start_of(EXTENDED_FILTERS, xidfc(word)));
    for (fifo, section) in [(0, RX_FIFO_0), (1, RX_FIFO_1)] {
        let rxfc = |word| match fifo {
            0 => Registers { rxf0c: word, ..Registers::default() },
            _ => Registers { rxf1c: word, ..Registers::default() },
        };
        h.field("RXFC_OVERWRITE", |word| u32::from(rxfc(word).fifo_overwrites(fifo)));
        h.field("RXFC_WATERMARK", |word| rxfc(word).fifo_watermark(fifo));
        h.field("RXFC_COUNT", |word| rxfc(word).fifo_size(fifo));
        h.field("RXFC_START", |word| start_of(section, rxfc(word)));
    }
    h.field("RXBC_START", |rxbc| start_of(RX_BUFFERS, Registers { rxbc, ..Registers::default() }));
    let rxesc = |rxesc| Registers { rxesc, ..Registers::default() };
    h.field("RXESC_FIFO0", |word| rxesc(word).fifo_size_code(0));
    h.field("RXESC_FIFO1", |word| rxesc(word).fifo_size_code(1));
    h.field("RXESC_RX_BUFFERS", |word| rxesc(word).rx_buffer_size_code());
    h.field("TXESC_SIZE", |txesc| Registers { txesc, ..Registers::default() }.tx_size_code());
    let txefc = |txefc| Registers { txefc, ..Registers::default() };
    h.field("TXEFC_WATERMARK", |word| txefc(word).events_watermark());
    h.field("TXEFC_COUNT", |word| txefc(word).events_size());
    h.field("TXEFC_START", |word| start_of(TX_EVENTS, txefc(word)));
    let txbc = |txbc| Registers { txbc, ..Registers::default() };
    h.field("TXBC_QUEUE", |word| u32::from(txbc(word).queue_mode()));
    h.field("TXBC_SHARED", |word| txbc(word).shared());
    h.field("TXBC_DEDICATED", |word| txbc(word).dedicated());
    h.field("TXBC_START", |word| start_of(TX_BUFFERS, txbc(word)));
    let gfc = |gfc| Registers { gfc, ..Registers::default() };
    h.field("GFC_ANFS", |word| gfc(word).without_match(false));
    h.field("GFC_ANFE", |word| gfc(word).without_match(true));
    h.field("GFC_RRFS", |word| u32::from(gfc(word).rejects_remote(false)));
    h.field("GFC_RRFE", |word| u32::from(gfc(word).rejects_remote(true)));
}

/// Each argument of a register's macro goes to the field that it is named after.
fn register_constructors(h: &Header) {
    let r = Registers {
        sidfc: h.number("SIDFC(3, 5)"),
        xidfc: h.number("XIDFC(7, 11)"),
        rxf0c: h.number("RXFC(1, 13, 17, 19)"),
        rxf1c: h.number("RXFC(0, 23, 29, 31)"),
        rxbc: h.number("RXBC(37)"),
        rxesc: h.number("RXESC(1, 2, 3)"),
        txefc: h.number("TXEFC(41, 43, 47)"),
        txbc: h.number("TXBC(1, 53, 59, 61)"),
        txesc: h.number("TXESC(5)"),
        gfc: h.number("GFC(3, 2, 1, 0)"),
        rx_buffers: 1,
        ..Registers::default()
    };
    let starts = [0, 1, 2, 3, 4, 5, 6].map(|number| section(&r, number).start);
    assert_eq!(starts, [5, 11, 19, 31, 37, 47, 61]);
    assert_eq!(
        [r.standard_filters(), r.extended_filters(), r.events_watermark(), r.events_size()],
        [3, 7, 41, 43]
    );
    assert_eq!([0, 1].map(|fifo| r.fifo_overwrites(fifo)), [true, false]);
    assert_eq!([0, 1].map(|fifo| [r.fifo_watermark(fifo), r.fifo_size(fifo)]), [[13, 17], [23, 29]]);
    assert_eq!(
        [r.fifo_size_code(0), r.fifo_size_code(1), r.rx_buffer_size_code(), r.tx_size_code()],
        [1, 2, 3, 5]
    );
    assert_eq!((r.queue_mode(), r.shared(), r.dedicated()), (true, 53, 59));
    assert_eq!([false, true].map(|xtd| r.without_match(xtd)), [3, 2]);
    assert_eq!([false, true].map(|xtd| r.rejects_remote(xtd)), [true, false]);
}

fn register_values(h: &Header) {
    let overwrites = |bit: &u32| Registers { rxf0c: bit << 31, ..Registers::default() }.fifo_overwrites(0);
    h.lowest("FIFO_BLOCKS", 0..2, |bit| !overwrites(bit));
    h.lowest("FIFO_OVERWRITES", 0..2, overwrites);
    let queue = |bit: &u32| Registers { txbc: bit << 30, ..Registers::default() }.queue_mode();
    h.lowest("SHARED_IS_FIFO", 0..2, |bit| !queue(bit));
    h.lowest("SHARED_IS_QUEUE", 0..2, queue);
    let no_match = [
        ("NO_MATCH_TO_FIFO0", Destination::FifoWithoutMatch { fifo: 0 }),
        ("NO_MATCH_TO_FIFO1", Destination::FifoWithoutMatch { fifo: 1 }),
        ("NO_MATCH_DISCARDED", Destination::NoMatch),
    ];
    let unmatched =
        |anfs| destination(&Registers { gfc: anfs << 4, ..Registers::default() }, &[], &Frame::default());
    for (name, wanted) in no_match {
        h.lowest(name, 0..4, |anfs| unmatched(*anfs) == wanted);
    }
    let discarded: Vec<u32> = (0..4).filter(|anfs| unmatched(*anfs) == Destination::NoMatch).collect();
    assert_eq!(discarded, ["NO_MATCH_DISCARDED", "NO_MATCH_DISCARDED_TOO"].map(|name| h.number(name)));
    h.same("XIDAM_RESET", Registers::reset().xidam);
    for bytes in SIZE_BYTES {
        let code = h.number(&format!("SIZE_{bytes}"));
        assert_eq!(size_bytes(code), bytes, "SIZE_{bytes}");
        h.same(&format!("ELEMENT_WORDS(SIZE_{bytes})"), size_words(code));
    }
    let one = Registers { sidfc: 1 << 16, xidfc: 1 << 16, txefc: 1 << 16, ..Registers::default() };
    h.same("FILTER_11_WORDS", section(&one, STANDARD_FILTERS).words);
    h.same("FILTER_29_WORDS", section(&one, EXTENDED_FILTERS).words);
    h.same("EVENT_WORDS", section(&one, TX_EVENTS).words);
}

// ------------------------------------------------------------------------------------------------------
// Filters
// ------------------------------------------------------------------------------------------------------

fn filter_elements(h: &Header) {
    h.field("FILTER_11_TYPE", |word| standard_filter(word).kind);
    h.field("FILTER_11_ACTION", |word| standard_filter(word).action);
    h.field("FILTER_11_ID1", |word| standard_filter(word).id1);
    h.field("FILTER_11_ID2", |word| standard_filter(word).id2);
    h.field("FILTER_29_ACTION", |first| extended_filter(first, 0).action);
    h.field("FILTER_29_ID1", |first| extended_filter(first, 0).id1);
    h.field("FILTER_29_TYPE", |second| extended_filter(0, second).kind);
    h.field("FILTER_29_ID2", |second| extended_filter(0, second).id2);
    let wanted = Filter { kind: 2, action: 5, id1: 0x123, id2: 0x456 };
    assert_eq!(filter_11(h, "2, 5, 0x123, 0x456"), wanted);
    assert_eq!(filter_29(h, "2, 5, 0x123, 0x456"), wanted);
    let most = Filter { kind: 3, action: 7, id1: 0x7FF, id2: 0x7FF };
    assert_eq!(filter_11(h, "3, 7, ID_11_MOST, ID_11_MOST"), most);
    let most = Filter { id1: 0x1FFF_FFFF, id2: 0x1FFF_FFFF, ..most };
    assert_eq!(filter_29(h, "3, 7, ID_29_MOST, ID_29_MOST"), most);
    h.same("FILTER_11_FITS(3, 7, ID_11_MOST, ID_11_MOST)", 1);
    h.same("FILTER_29_FITS(3, 7, ID_29_MOST, ID_29_MOST)", 1);

    // A value that does not fit makes the element off: all its words are 0.
    for (name, fields) in [
        ("FILTER_11_FITS", "FILTER_11"),
        ("FILTER_11", "FILTER_11"),
        ("FILTER_29_FITS", "FILTER_29"),
        ("FILTER_29_FIRST", "FILTER_29"),
        ("FILTER_29_SECOND", "FILTER_29"),
    ] {
        h.with_one_too_large(name, fields).iter().for_each(|unfit| h.same(unfit, 0));
    }
    for unfit in ["ID_11_MOST + 1, 40", "0x123, RX_BUFFERS_MOST"] {
        h.same(&format!("FILTER_11_TO_BUFFER({unfit})"), 0);
    }
    for unfit in ["ID_29_MOST + 1, 40", "0x1234567, RX_BUFFERS_MOST"] {
        h.same(&format!("FILTER_29_TO_BUFFER_FIRST({unfit})"), 0);
        h.same(&format!("FILTER_29_TO_BUFFER_SECOND({unfit})"), 0);
    }
    for xtd in [false, true] {
        assert!((0..0x800).all(|id| sent_to(id, &[0, 0], xtd) == Destination::NoMatch), "words of 0 are off");
    }

    // What ID2 says with action 7, of both kinds.
    let of_11 = |id2: u32| sent_to(0x123, &[7 << 27 | 0x123 << 16 | id2 & 0x7FF], false);
    let of_29 = |id2: u32| sent_to(0x123, &[7 << 29 | 0x123, id2 & 0x1FFF_FFFF], true);
    for sent in [&of_11 as &dyn Fn(u32) -> Destination, &of_29] {
        let asks = |bit: &u32| sent(*bit) == Destination::Debug { index: 0 };
        let debug: u32 = (0..32).map(|at| 1 << at).filter(asks).sum();
        h.field("FILTER_DEBUG", |id2| (id2 & debug) >> debug.trailing_zeros());
        h.field("FILTER_BUFFER", |id2| match sent(id2 & !debug) {
            Destination::RxBuffer { buffer, .. } => buffer,
            other => panic!("{other:?}"),
        });
    }
    let words = ["FIRST", "SECOND"].map(|word| h.number(&format!("FILTER_29_TO_BUFFER_{word}(0x1234567, 40)")));
    let wanted = Destination::RxBuffer { buffer: 40, index: 0 };
    assert_eq!(sent_to(0x123_4567, &words, true), wanted);
    assert_eq!(sent_to(0x123, &[h.number("FILTER_11_TO_BUFFER(0x123, 40)")], false), wanted);
}

/// The element that the header makes of these arguments: type, action, ID1 and ID2.
fn filter_11(h: &Header, arguments: &str) -> Filter {
    standard_filter(h.number(&format!("FILTER_11({arguments})")))
}

fn filter_29(h: &Header, arguments: &str) -> Filter {
    let [first, second] = ["FIRST", "SECOND"].map(|word| h.number(&format!("FILTER_29_{word}({arguments})")));
    extended_filter(first, second)
}

/// Where one filter element sends a frame, with 64 Rx buffers. A frame that it doesn't match is discarded.
fn sent_to(id: u32, element: &[u32], xtd: bool) -> Destination {
    let r =
        Registers { sidfc: 1 << 16, xidfc: 1 << 16, gfc: 2 << 4 | 2 << 2, rx_buffers: 64, ..Registers::reset() };
    destination(&r, element, &Frame { id, xtd, ..Frame::default() })
}

fn filter_types(h: &Header) {
    let filter = |kind| Filter { kind, action: 1, id1: 2, id2: 5 };
    let matched_11 = |kind| (0..8).filter(|id| standard_matches(&filter(kind), *id)).collect::<Vec<u32>>();
    let matched_29 =
        |kind, xidam| (0..8).filter(|id| extended_matches(&filter(kind), *id, xidam)).collect::<Vec<u32>>();
    let both = [("FILTER_RANGE", vec![2, 3, 4, 5]), ("FILTER_EITHER", vec![2, 5]), ("FILTER_MASKED", vec![0, 2])];
    for (name, wanted) in both {
        h.lowest(name, 0..4, |kind| matched_11(*kind) == wanted);
        h.lowest(name, 0..4, |kind| matched_29(*kind, u32::MAX) == wanted);
    }
    h.lowest("FILTER_11_OFF", 0..4, |kind| matched_11(*kind).is_empty());
    h.lowest("FILTER_29_RANGE_WITHOUT_XIDAM", 0..4, |kind| matched_29(*kind, 0) == [2, 3, 4, 5]);
}

fn filter_actions(h: &Header) {
    let fifo = |fifo, priority| Destination::Fifo { fifo, index: 0, priority };
    let actions = [
        ("ACTION_OFF", Destination::NoMatch),
        ("ACTION_FIFO0", fifo(0, false)),
        ("ACTION_FIFO1", fifo(1, false)),
        ("ACTION_REJECT", Destination::Reject { index: 0 }),
        ("ACTION_PRIORITY", Destination::PriorityOnly { index: 0 }),
        ("ACTION_PRIORITY_FIFO0", fifo(0, true)),
        ("ACTION_PRIORITY_FIFO1", fifo(1, true)),
        ("ACTION_RX_BUFFER", Destination::RxBuffer { buffer: 7, index: 0 }),
    ];
    for (name, wanted) in actions {
        let element = |action: u32| [1 << 30 | action << 27 | 7 << 16 | 7];
        h.lowest(name, 0..8, |action| sent_to(7, &element(*action), false) == wanted);
    }
}

// ------------------------------------------------------------------------------------------------------
// Limits, the record and the sections
// ------------------------------------------------------------------------------------------------------

fn limits(h: &Header) {
    h.same("FILTERS_11_MOST", MOST[STANDARD_FILTERS]);
    h.same("FILTERS_29_MOST", MOST[EXTENDED_FILTERS]);
    h.same("FIFO_MOST", MOST[RX_FIFO_0]);
    h.same("FIFO_MOST", MOST[RX_FIFO_1]);
    h.same("RX_BUFFERS_MOST", MOST[RX_BUFFERS]);
    h.same("EVENTS_MOST", MOST[TX_EVENTS]);
    h.same("TX_BUFFERS_MOST", MOST[TX_BUFFERS]);
    h.same("MEMORY_MOST", MEMORY_MOST);
    let most = |name: &str, frame: fn(u32) -> Frame| {
        let [at_most, over] = [0, 1].map(|more| malformed(&frame(h.number(name) + more), &[]));
        assert_eq!((at_most, over), (false, true), "{name}");
    };
    most("ID_11_MOST", |id| Frame { id, ..Frame::default() });
    most("ID_29_MOST", |id| Frame { id, xtd: true, ..Frame::default() });
    most("DLC_MOST", |dlc| Frame { dlc, rtr: true, ..Frame::default() });
    let mut longest = 0;
    for (rtr, fdf) in [(0, 0), (0, 1), (1, 0), (1, 1)] {
        for dlc in (0..=17).chain([u32::MAX]) {
            let length = data_length(rtr == 1, fdf == 1, dlc);
            h.same(&format!("DATA_BYTES({rtr}, {fdf}, {dlc})"), length);
            longest = longest.max(length);
        }
    }
    h.same("DATA_BYTES_MOST", longest);
}

fn record(h: &Header) {
    let flags = [
        ("FLAG_FIFO0_NEW", FIFO_NEW),
        ("FLAG_FIFO0_WATERMARK", FIFO_WATERMARK),
        ("FLAG_FIFO0_FULL", FIFO_FULL),
        ("FLAG_FIFO0_LOST", FIFO_LOST),
        ("FLAG_FIFO1_NEW", 4 + FIFO_NEW),
        ("FLAG_FIFO1_WATERMARK", 4 + FIFO_WATERMARK),
        ("FLAG_FIFO1_FULL", 4 + FIFO_FULL),
        ("FLAG_FIFO1_LOST", 4 + FIFO_LOST),
        ("FLAG_PRIORITY", PRIORITY),
        ("FLAG_SENT", SENT),
        ("FLAG_CANCELLED", CANCELLED),
        ("FLAG_TX_FIFO_EMPTY", TX_FIFO_EMPTIED),
        ("FLAG_EVENT_NEW", EVENT_NEW),
        ("FLAG_EVENT_WATERMARK", EVENT_WATERMARK),
        ("FLAG_EVENT_FULL", EVENT_FULL),
        ("FLAG_EVENT_LOST", EVENT_LOST),
        ("FLAG_RX_BUFFER", RX_BUFFER_STORED),
    ];
    flags.iter().for_each(|(name, bit)| h.same(name, 1 << bit));
    assert_eq!(flags.iter().fold(0, |all, (_, bit)| all | 1 << bit), FLAGS, "every flag has a name");
    h.same("FLAGS_ALL", FLAGS);

    // The host only writes these fields: their lowest bits and widths are seen in what it writes.
    let priority = |name: &str, write: fn(u32) -> u32| {
        h.field(name, |word| (word & write(u32::MAX)) >> write(1).trailing_zeros());
    };
    priority("PRIORITY_LIST", |list| priority_word(list != 0, 0, 0, 0));
    priority("PRIORITY_FILTER", |index| priority_word(false, index, 0, 0));
    priority("PRIORITY_OUTCOME", |outcome| priority_word(false, 0, outcome, 0));
    priority("PRIORITY_PLACE", |place| priority_word(false, 0, 0, place));
    h.same("PRIORITY_NO_FIFO", OUTCOME_NO_FIFO);
    h.same("PRIORITY_LOST", OUTCOME_LOST);
    h.same("PRIORITY_IN_FIFO0", OUTCOME_STORED);
    h.same("PRIORITY_IN_FIFO1", OUTCOME_STORED + 1);
}

fn section_numbers(h: &Header) {
    h.same("SECTION_FILTERS_11", STANDARD_FILTERS as u32);
    h.same("SECTION_FILTERS_29", EXTENDED_FILTERS as u32);
    h.same("SECTION_FIFO0", RX_FIFO_0 as u32);
    h.same("SECTION_FIFO1", RX_FIFO_1 as u32);
    h.same("SECTION_RX_BUFFERS", RX_BUFFERS as u32);
    h.same("SECTION_EVENTS", TX_EVENTS as u32);
    h.same("SECTION_TX_BUFFERS", TX_BUFFERS as u32);
    h.same("SECTIONS", MOST.len() as u32);
    h.same("NO_SECTION", NO_SECTION);
}

// ------------------------------------------------------------------------------------------------------
// What the calls return and answer
// ------------------------------------------------------------------------------------------------------

/// A box behind the boundary. Each call that answers finds an answer that no call wrote.
struct Lent<'a> {
    calls: &'a dyn Calls,
    state: [u32; STATE_WORDS],
    record: [u32; STATUS_WORDS],
    memory: Vec<u32>,
    output: Vec<u8>,
    answer: Vec<u32>,
}

/// Eight 11-bit filters, FIFOs of four, four Rx buffers, four events, four dedicated buffers and a shared FIFO of
/// two. Without a match 11-bit frames are discarded and 29-bit frames go to FIFO 0; 11-bit remote frames are
/// rejected.
const BOX: Registers = Registers {
    sidfc: 8 << 16,
    xidfc: 0,
    rxf0c: 4 << 16 | 100 << 2,
    rxf1c: 4 << 16 | 200 << 2,
    rxbc: 300 << 2,
    rxesc: 0,
    txefc: 4 << 16 | 400 << 2,
    txbc: 2 << 24 | 4 << 16 | 500 << 2,
    txesc: 0,
    gfc: 2 << 4 | 1 << 1,
    xidam: 0,
    rx_buffers: 4,
    fd_on: true,
    rate_switch_on: true,
    memory_words: BENCH_MEMORY_WORDS,
};

/// What stands in an answer's word that no call wrote.
const UNWRITTEN: u32 = 0xA5A5_A5A5;

const FRAME: Frame = Frame { id: 0x55, xtd: false, rtr: false, fdf: true, brs: true, esi: false, dlc: 6 };

impl Lent<'_> {
    /// A box that was never started.
    fn new(calls: &dyn Calls) -> Lent<'_> {
        let mut lent = Lent {
            calls,
            state: [0; STATE_WORDS],
            record: [0; STATUS_WORDS],
            memory: vec![0; BENCH_MEMORY_WORDS as usize],
            output: vec![0; OUTPUT_BYTES],
            answer: vec![0; ANSWER_WORDS],
        };
        lent.calls.never_started(&mut lent.state);
        lent
    }

    fn started(calls: &dyn Calls) -> Lent<'_> {
        let mut lent = Lent::new(calls);
        assert_eq!(lent.start(&BOX), 0);
        lent
    }

    fn fresh_answer(&mut self) {
        self.answer.fill(UNWRITTEN);
    }

    /// That the last call wrote so many words of its answer, from word 0 on, and no other.
    fn wrote(&self, words: u32) {
        let written = (0u32..).zip(&self.answer).filter(|(_, word)| **word != UNWRITTEN).map(|(at, _)| at);
        assert!(written.eq(0..words), "{words} words of {:x?}", self.answer);
    }

    fn start(&mut self, registers: &Registers) -> u32 {
        let mut words = [0; REGISTER_WORDS];
        pack_registers(registers, &mut words);
        self.start_of_words(&words)
    }

    fn start_of_words(&mut self, words: &[u32]) -> u32 {
        self.fresh_answer();
        self.calls.start(&mut self.state, &mut self.record, &self.memory, words, &mut self.answer)
    }

    fn receive(&mut self, frame: &Frame, time: u16) -> u32 {
        self.fresh_answer();
        let data = vec![0; data_length(frame.rtr, frame.fdf, frame.dlc) as usize];
        let Lent { calls, state, record, memory, answer, .. } = self;
        calls.receive(state, record, memory, &words_of(frame), &data, time, answer)
    }

    fn read_fifo(&mut self, fifo: u32, place: u32) -> u32 {
        self.fresh_answer();
        let Lent { calls, state, record, memory, output, answer } = self;
        calls.read_fifo(state, record, memory, fifo, place, output, answer)
    }

    fn request_dedicated(&mut self, buffer: u32, frame: &Frame, marker: u8) -> u32 {
        self.fresh_answer();
        let data = vec![0; data_length(frame.rtr, frame.fdf, frame.dlc) as usize];
        let Lent { calls, state, record, memory, answer, .. } = self;
        calls.request_dedicated(state, record, memory, buffer, &words_of(frame), &data, marker, 1, answer)
    }

    fn request_shared(&mut self) -> u32 {
        self.fresh_answer();
        let Lent { calls, state, record, memory, answer, .. } = self;
        calls.request_shared(state, record, memory, &words_of(&FRAME), &[0; 6], 0, 0, answer)
    }

    fn cancel(&mut self, buffer: u32) -> u32 {
        self.calls.cancel(&mut self.state, &mut self.record, &self.memory, buffer)
    }

    fn ask_choice(&mut self, passive: u32) -> u32 {
        self.fresh_answer();
        let Lent { calls, state, record, memory, output, answer } = self;
        calls.ask_choice(state, record, memory, passive, output, answer)
    }

    fn report_sent(&mut self, buffer: u32, time: u16) -> u32 {
        self.calls.report_sent(&mut self.state, &mut self.record, &mut self.memory, buffer, 0, time)
    }
}

fn start_numbers(h: &Header, calls: &dyn Calls) {
    let mut lent = Lent::new(calls);
    let mut refused = |name: &str, registers: Registers, sections: [&str; 2]| {
        h.same(name, lent.start(&registers));
        h.place("START_NAMED", &lent.answer, h.number(sections[0]));
        h.place("START_NAMED_TOO", &lent.answer, h.number(sections[1]));
        lent.wrote(2);
    };
    let none = ["NO_SECTION", "NO_SECTION"];
    refused("REFUSED_UNNAMED_BIT", Registers { gfc: 1 << 6, ..BOX }, none);
    refused("REFUSED_COUNT_OVER", Registers { txefc: 33 << 16, ..BOX }, ["SECTION_EVENTS", "NO_SECTION"]);
    refused("REFUSED_TX_OVER", Registers { txbc: 20 << 24 | 13 << 16, ..BOX }, none);
    let past = Registers { rxbc: 2560 << 2, ..BOX };
    refused("REFUSED_PAST_MEMORY", past, ["SECTION_RX_BUFFERS", "NO_SECTION"]);
    let overlap = Registers { txefc: 4 << 16 | 200 << 2, ..BOX };
    refused("REFUSED_OVERLAP", overlap, ["SECTION_FIFO1", "SECTION_EVENTS"]);

    h.same("ACCEPTED", lent.start(&BOX));
    lent.wrote(h.number("START_ANSWER_WORDS"));
    for (number, place) in sections(&BOX).iter().enumerate() {
        h.place(&format!("START_FIRST_WORD({number})"), &lent.answer, place.start);
        h.place(&format!("START_WORDS({number})"), &lent.answer, place.words);
    }
    lent.memory.pop();
    h.same("REFUSED_WRONG_MEMORY", lent.start(&BOX));
    lent.answer.pop();
    h.same("REFUSED_WRONG_LENGTH", lent.start(&BOX));
}

/// A start accepts a memory of 1 to so many words, and no other.
fn memory_most(h: &Header, calls: &dyn Calls) {
    let mut lent = Lent::new(calls);
    let most = h.number("MEMORY_MOST");
    for memory_words in [0, 1, most, most + 1] {
        lent.memory.resize(memory_words as usize, 0);
        let wanted = if (1..=most).contains(&memory_words) { "ACCEPTED" } else { "REFUSED_WRONG_MEMORY" };
        h.same(wanted, lent.start(&Registers { memory_words, ..Registers::reset() }));
    }
}

/// A start refuses exactly the bits that have no name, and so what a macro makes of a value that does not fit.
fn named_bits(h: &Header, calls: &dyn Calls) {
    let mut lent = Lent::new(calls);
    let registers =
        ["SIDFC", "XIDFC", "RXF0C", "RXF1C", "RXBC", "RXESC", "TXEFC", "TXBC", "TXESC", "GFC", "XIDAM"];
    for register in registers {
        let place = h.number(&format!("REGISTER_{register}")) as usize;
        let mut refused = |value: u32| {
            let mut words = [0; REGISTER_WORDS];
            words[place] = value;
            words[h.number("REGISTER_MEMORY_WORDS") as usize] = BENCH_MEMORY_WORDS;
            lent.start_of_words(&words) == h.number("REFUSED_UNNAMED_BIT")
        };
        let name = if register.starts_with("RXF") { "RXFC" } else { register };
        let named = (0..32).map(|at| 1 << at).filter(|bit| !refused(*bit)).sum();
        h.same(&format!("{name}_NAMED"), named);
        // XIDAM has no fields and no macro.
        if name != "XIDAM" {
            for unfit in h.with_one_too_large(name, name) {
                h.same(&unfit, u32::MAX);
                assert!(refused(h.number(&unfit)), "{unfit}");
            }
        }
    }
}

fn call_numbers(h: &Header, calls: &dyn Calls) {
    h.same("REFUSED_UNFIT", Lent::new(calls).receive(&FRAME, 0));
    let mut lent = Lent::started(calls);
    h.same("REFUSED_MALFORMED", lent.receive(&Frame { id: 0x800, ..FRAME }, 0));
    h.same("REFUSED_NO_SUCH", lent.read_fifo(2, 0));
    h.same("REFUSED_NOT_HELD", lent.read_fifo(0, 0));
    h.same("REFUSED_NOT_PENDING", lent.cancel(3));
    h.same("REFUSED_NOT_THE_CHOICE", lent.report_sent(3, 0));
    h.same("ACCEPTED", lent.request_dedicated(3, &FRAME, 0));
    h.same("REFUSED_ALREADY_PENDING", lent.request_dedicated(3, &FRAME, 0));
    h.same("ACCEPTED", lent.request_shared());
    h.same("ACCEPTED", lent.request_shared());
    h.same("REFUSED_NONE_FREE", lent.request_shared());
    h.same("REFUSED_IN_SHARED_FIFO", lent.cancel(4));
    h.same("REFUSED_NOT_YES_OR_NO", lent.ask_choice(2));
    lent.output.pop();
    h.same("REFUSED_WRONG_OUTPUT", lent.ask_choice(0));
    h.same("ACCEPTED", lent.start(&Registers { fd_on: false, ..BOX }));
    h.same("REFUSED_FD_OFF", lent.receive(&FRAME, 0));
}

fn received(h: &Header, calls: &dyn Calls) {
    let mut lent = Lent::started(calls);
    // Element n matches identifier 0x10 + n: reject, FIFO 1, Rx buffer 3, priority, debug, misfiled.
    let elements = [(3, 0), (2, 0x11), (7, 3), (4, 0x13), (7, 1 << 9), (7, 10)];
    for (nth, (action, id2)) in elements.into_iter().enumerate() {
        lent.memory[nth] = 1 << 30 | action << 27 | (0x10 + nth as u32) << 16 | id2;
    }
    let mut answered = |frame: &Frame, outcome: &str, what: u32, place: u32, filter: u32| {
        h.same("ACCEPTED", lent.receive(frame, 0x1234));
        lent.wrote(h.number("RECEIVE_ANSWER_WORDS"));
        h.place("RECEIVE_OUTCOME", &lent.answer, h.number(outcome));
        h.place("RECEIVE_WHERE", &lent.answer, what);
        h.place("RECEIVE_PLACE", &lent.answer, place);
        h.place("RECEIVE_FILTER", &lent.answer, filter);
    };
    let element = |nth: u32| Frame { id: 0x10 + nth, ..FRAME };
    let [fifo0, fifo1] = ["FIFO0", "FIFO1"].map(|name| h.number(name));
    (0..4).for_each(|place| answered(&element(1), "OUTCOME_IN_FIFO", fifo1, place, 2));
    answered(&element(1), "OUTCOME_LOST", fifo1, 0, 2);
    answered(&element(2), "OUTCOME_IN_BUFFER", 3, 0, 3);
    let none = h.number("RECEIVE_NO_FILTER");
    let remote = Frame { rtr: true, fdf: false, brs: false, ..FRAME };
    let discarded = [
        ("REASON_REMOTE", REASON_REMOTE, remote, none),
        ("REASON_REJECT", REASON_REJECT, element(0), 1),
        ("REASON_NO_MATCH", REASON_NO_MATCH, FRAME, none),
        ("REASON_PRIORITY_ONLY", REASON_PRIORITY_ONLY, element(3), 4),
        ("REASON_DEBUG", REASON_DEBUG, element(4), 5),
        ("REASON_MISFILED", REASON_MISFILED, element(5), 6),
        ("REASON_LOCKED", REASON_LOCKED, element(2), 3),
    ];
    for (name, reason, frame, filter) in discarded {
        h.same(name, reason);
        answered(&frame, "OUTCOME_DISCARDED", reason, 0, filter);
    }
    let unmatched = Frame { id: 0x123_4567, xtd: true, ..FRAME };
    answered(&unmatched, "OUTCOME_IN_FIFO", fifo0, 0, none);

    for (fifo, frame, filter, anmf) in [(fifo0, unmatched, 0, "YES"), (fifo1, element(1), 1, "NO")] {
        h.same("ACCEPTED", lent.read_fifo(fifo, 0));
        lent.wrote(h.number("READ_ANSWER_WORDS"));
        assert_eq!(lent.answer[h.number("READ_FRAME") as usize..][..FRAME_WORDS], words_of(&frame), "READ_FRAME");
        h.place("READ_TIME", &lent.answer, 0x1234);
        h.place("READ_FILTER", &lent.answer, filter);
        h.place("READ_ANMF", &lent.answer, h.number(anmf));
        h.place("READ_BYTES", &lent.answer, 6);
    }
}

/// What the priority word tells of frames that elements of either list note.
fn priority(h: &Header, calls: &dyn Calls) {
    let mut lent = Lent::new(calls);
    let xidam = h.number("XIDAM_RESET");
    h.same("ACCEPTED", lent.start(&Registers { xidfc: 1 << 16 | 50 << 2, xidam, ..BOX }));
    lent.memory[3] = h.number("FILTER_11(FILTER_EITHER, ACTION_PRIORITY_FIFO1, 0x13, 0x14)");
    let arguments = "FILTER_RANGE, ACTION_PRIORITY, 0x1234560, 0x1234567";
    lent.memory[50] = h.number(&format!("FILTER_29_FIRST({arguments})"));
    lent.memory[51] = h.number(&format!("FILTER_29_SECOND({arguments})"));
    let of_11 = Frame { id: 0x13, ..FRAME };
    let of_29 = Frame { id: 0x123_4565, xtd: true, ..FRAME };
    let noted = [
        (of_11, "LIST_11", 3, "PRIORITY_IN_FIFO1", 0),
        (of_11, "LIST_11", 3, "PRIORITY_IN_FIFO1", 1),
        (of_29, "LIST_29", 0, "PRIORITY_NO_FIFO", 0),
    ];
    for (frame, list, filter, outcome, place) in noted {
        h.same("ACCEPTED", lent.receive(&frame, 0));
        let word = lent.record[1];
        h.same(&format!("TAKE({word}, PRIORITY_LIST)"), h.number(list));
        h.same(&format!("TAKE({word}, PRIORITY_FILTER)"), filter);
        h.same(&format!("TAKE({word}, PRIORITY_OUTCOME)"), h.number(outcome));
        h.same(&format!("TAKE({word}, PRIORITY_PLACE)"), place);
    }
}

/// The bit that a buffer sets in the state: each Rx buffer as it is filled, each Tx buffer as it is asked for.
fn buffer_bits(h: &Header, calls: &dyn Calls) {
    let mut lent = Lent::new(calls);
    let registers = Registers {
        sidfc: 1 << 16,
        rxbc: 100 << 2,
        rx_buffers: 64,
        txbc: 32 << 16 | 500 << 2,
        fd_on: true,
        memory_words: BENCH_MEMORY_WORDS,
        ..Registers::reset()
    };
    h.same("ACCEPTED", lent.start(&registers));
    for buffer in 0..64 {
        let word = h.number(if buffer < 32 { "STATE_NEW_DATA_LOW" } else { "STATE_NEW_DATA_HIGH" }) as usize;
        let before = lent.state[word];
        lent.memory[0] = h.number(&format!("FILTER_11_TO_BUFFER({}, {buffer})", FRAME.id));
        h.same("ACCEPTED", lent.receive(&FRAME, 0));
        h.same(&format!("BUFFER_BIT({buffer})"), lent.state[word] ^ before);
    }
    for buffer in 0..32 {
        let word = h.number("STATE_PENDING") as usize;
        let before = lent.state[word];
        h.same("ACCEPTED", lent.request_dedicated(buffer, &FRAME, 0));
        h.same(&format!("BUFFER_BIT({buffer})"), lent.state[word] ^ before);
    }
}

fn sent(h: &Header, calls: &dyn Calls) {
    let mut lent = Lent::started(calls);
    h.same("ACCEPTED", lent.ask_choice(0));
    lent.wrote(1);
    h.place("CHOICE_BUFFER", &lent.answer, h.number("CHOICE_NOTHING"));
    h.same("CHOICE_NOTHING", NO_BUFFER);
    h.same("ACCEPTED", lent.request_dedicated(3, &FRAME, 0x77));
    lent.wrote(h.number("REQUEST_ANSWER_WORDS"));
    h.place("REQUEST_BUFFER", &lent.answer, 3);
    h.same("ACCEPTED", lent.ask_choice(0));
    lent.wrote(h.number("CHOICE_ANSWER_WORDS"));
    h.place("CHOICE_BUFFER", &lent.answer, 3);
    h.place("CHOICE_MARKER", &lent.answer, 0x77);
    h.place("CHOICE_WISH", &lent.answer, h.number("YES"));
    assert_eq!(lent.answer[h.number("CHOICE_FRAME") as usize..][..FRAME_WORDS], words_of(&FRAME), "CHOICE_FRAME");
    h.place("CHOICE_BYTES", &lent.answer, 6);

    h.same("ACCEPTED", lent.report_sent(3, 0x4321));
    lent.fresh_answer();
    h.same("ACCEPTED", calls.read_event(&lent.state, &lent.record, &lent.memory, 0, &mut lent.answer));
    lent.wrote(h.number("EVENT_ANSWER_WORDS"));
    assert_eq!(lent.answer[h.number("EVENT_FRAME") as usize..][..FRAME_WORDS], words_of(&FRAME), "EVENT_FRAME");
    h.place("EVENT_MARKER", &lent.answer, 0x77);
    h.place("EVENT_TYPE", &lent.answer, h.number("EVENT_TYPE_SENT"));
    h.place("EVENT_TIME", &lent.answer, 0x4321);

    // The buffers have room for eight bytes; those of twelve that were not kept go out as the filler.
    h.same("ACCEPTED", lent.request_dedicated(0, &Frame { dlc: 9, ..FRAME }, 0));
    h.same("ACCEPTED", lent.ask_choice(0));
    let filler = u8::try_from(h.number("FILLER")).expect("the filler is a byte");
    assert_eq!(lent.output[..12], [[0; 4], [0; 4], [filler; 4]].concat(), "FILLER");
}

fn status(h: &Header, calls: &dyn Calls) {
    // All thirteen words differ: four rings of other places, and 15 + 2 pending buffers.
    let registers = Registers {
        rxf0c: 32 << 16,
        rxf1c: 32 << 16 | 200 << 2,
        txefc: 32 << 16 | 400 << 2,
        txbc: 20 << 24 | 12 << 16 | 500 << 2,
        memory_words: BENCH_MEMORY_WORDS,
        ..Registers::default()
    };
    let s = State {
        registers,
        fifo0: Ring { oldest: 1, fill: 20 },
        fifo1: Ring { oldest: 2, fill: 22 },
        events: Ring { oldest: 3, fill: 23 },
        shared: Ring { oldest: 4, fill: 15 },
        pending: (ones(15) as u32) << 16 | 3,
        ..State::default()
    };
    let mut lent = Lent::new(calls);
    pack_state(&s, &mut lent.state);
    lent.fresh_answer();
    h.same("ACCEPTED", calls.status(&lent.state, &lent.record, &lent.memory, &mut lent.answer));
    lent.wrote(h.number("STATUS_ANSWER_WORDS"));
    let rings = [
        ("RING_FIFO0", s.fifo0, 32),
        ("RING_FIFO1", s.fifo1, 32),
        ("RING_EVENTS", s.events, 32),
        ("RING_SHARED", s.shared, 20),
    ];
    for (name, ring, size) in rings {
        h.place(&format!("STATUS_FILL({name})"), &lent.answer, ring.fill);
        h.place(&format!("STATUS_OLDEST({name})"), &lent.answer, ring.oldest);
        h.place(&format!("STATUS_PUT({name})"), &lent.answer, put_place(ring, size));
    }
    h.place("STATUS_PENDING", &lent.answer, 17);
}
