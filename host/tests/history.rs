//! Long random histories. What is held, pending and flagged is counted a second time, from inputs and answers
//! alone, and compared after every call. Then a hostile run: whatever comes in, no call panics, and a refusal
//! changes nothing.

use cuongphemi_host::model::*;
use cuongphemi_host::random::*;
use std::collections::{BTreeMap, BTreeSet, VecDeque};

/// A frame as it came in, and what should be read back.
#[derive(Clone, Debug)]
struct Kept {
    place: u32,
    frame: Frame,
    data: Vec<u8>,
    index: Option<u32>,
    time: u16,
}

/// A requested frame.
#[derive(Clone, Debug)]
struct Asked {
    frame: Frame,
    data: Vec<u8>,
    marker: u8,
    wish: bool,
}

/// The second account.
#[derive(Clone, Debug, Default)]
struct Account {
    fifo: [VecDeque<Kept>; 2],
    buffers: BTreeMap<u32, Kept>,
    pending: BTreeMap<u32, Asked>,
    /// The shared FIFO's buffers in the order of their requests.
    row: VecDeque<u32>,
    events: VecDeque<(u32, Event)>,
    sent: BTreeSet<u32>,
    cancelled: BTreeSet<u32>,
    flags: BTreeSet<u32>,
    priority: u32,
    accepted: BTreeMap<&'static str, u64>,
}

/// The bits of a frame that take part in arbitration, in the order on the bus; 0 wins.
fn bus_bits(frame: &Frame) -> Vec<u8> {
    let mut row = Vec::new();
    let base = if frame.xtd { frame.id >> 18 } else { frame.id };
    for at in (0..11).rev() {
        row.push((base >> at & 1) as u8);
    }
    if frame.xtd {
        row.push(1); // SRR
        row.push(1); // IDE
        for at in (0..18).rev() {
            row.push((frame.id >> at & 1) as u8);
        }
        row.push(frame.rtr as u8);
    } else {
        row.push(frame.rtr as u8);
        row.push(0); // IDE
    }
    row
}

/// The header that goes out for a request.
fn sent_form(r: &Registers, frame: &Frame, passive: bool) -> Frame {
    let mut sent = *frame;
    sent.fdf = frame.fdf && r.fd_on;
    sent.brs = sent.fdf && frame.brs && r.rate_switch_on;
    sent.esi = sent.fdf && (frame.esi || passive);
    sent
}

impl Account {
    /// The buffer that should go out next.
    fn best(&self, r: &Registers) -> Option<u32> {
        let queue = r.queue_mode();
        self.pending
            .iter()
            .filter(|(buffer, _)| **buffer < r.dedicated() || queue || self.row.front() == Some(buffer))
            .min_by_key(|(buffer, asked)| (bus_bits(&asked.frame), **buffer))
            .map(|(buffer, _)| *buffer)
    }

    fn note(&mut self, name: &'static str) {
        *self.accepted.entry(name).or_default() += 1;
    }

    fn received(&mut self, r: &Registers, answer: Received, frame: &Frame, data: &[u8], time: u16) {
        let kept = |place| Kept { place, frame: *frame, data: data.to_vec(), index: answer.index, time };
        match answer.outcome {
            Outcome::Stored { fifo, place } => {
                let size = r.fifo_size(fifo);
                let list = &mut self.fifo[fifo as usize];
                let group = 4 * fifo;
                self.flags.insert(group);
                if list.len() as u32 == size {
                    assert!(r.fifo_overwrites(fifo), "stored in a full blocking FIFO");
                    let gone = list.pop_front().expect("a full FIFO holds something");
                    assert_eq!(gone.place, place, "the oldest is overwritten");
                    list.push_back(kept(place));
                    self.note("overwritten");
                } else {
                    if let Some(youngest) = list.back() {
                        assert_eq!(place, (youngest.place + 1) % size, "places go round");
                    }
                    list.push_back(kept(place));
                    let fill = self.fifo[fifo as usize].len() as u32;
                    if fill == r.fifo_watermark(fifo) {
                        self.flags.insert(group + 1);
                    }
                    if fill == size {
                        self.flags.insert(group + 2);
                    }
                    self.note("stored");
                }
            }
            Outcome::Lost { fifo } => {
                let size = r.fifo_size(fifo);
                assert!(size == 0 || !r.fifo_overwrites(fifo));
                assert_eq!(self.fifo[fifo as usize].len() as u32, size, "lost with room left");
                self.flags.insert(4 * fifo + 3);
                self.note("lost");
            }
            Outcome::StoredBuffer { buffer } => {
                assert!(self.buffers.insert(buffer, kept(buffer)).is_none(), "a locked buffer was written");
                self.flags.insert(19);
                self.note("stored in a buffer");
            }
            Outcome::Discarded { reason } => {
                let names = ["remote", "reject", "no match", "priority only", "debug", "misfiled", "locked"];
                self.note(names[reason as usize]);
            }
        }
    }

    /// Reads the action of the filter that matched, to follow the priority word.
    fn priority(&mut self, r: &Registers, memory: &[u32], answer: Received, frame: &Frame) {
        let Some(index) = answer.index else { return };
        let all = sections(r);
        let action = if frame.xtd {
            memory[(all[1].start + 2 * index) as usize] >> 29
        } else {
            memory[(all[0].start + index) as usize] >> 27 & 7
        };
        let expected_fifo = match action {
            1 | 5 => Some(0),
            2 | 6 => Some(1),
            _ => None,
        };
        match answer.outcome {
            Outcome::Stored { fifo, .. } | Outcome::Lost { fifo } => assert_eq!(expected_fifo, Some(fifo)),
            Outcome::StoredBuffer { .. } => assert_eq!(action, 7),
            Outcome::Discarded { reason } => assert_eq!(action, [0, 3, 0, 4, 7, 7, 7][reason as usize]),
        }
        if !(4..=6).contains(&action) {
            return;
        }
        self.flags.insert(8);
        let low = match answer.outcome {
            Outcome::Stored { fifo, place } => (2 + fifo) * 64 + place,
            Outcome::Lost { .. } => 64,
            _ => 0,
        };
        self.priority = frame.xtd as u32 * 0x8000 + index * 0x100 + low;
    }

    fn reported(&mut self, r: &Registers, buffer: u32, passive: bool, time: u16) {
        let asked = self.pending.remove(&buffer).expect("only what is pending is sent");
        self.sent.insert(buffer);
        self.flags.insert(9);
        if buffer >= r.dedicated() && !r.queue_mode() {
            assert_eq!(self.row.pop_front(), Some(buffer), "the oldest of the FIFO is sent");
            if self.row.is_empty() {
                self.flags.insert(11);
            }
        }
        if !asked.wish {
            return;
        }
        if self.events.len() as u32 == r.events_size() {
            self.flags.insert(15);
            self.note("event lost");
            return;
        }
        let sent = sent_form(r, &asked.frame, passive);
        let event = Event {
            id: sent.id,
            xtd: sent.xtd,
            rtr: sent.rtr,
            esi: sent.esi,
            marker: asked.marker,
            kind: 1,
            fdf: sent.fdf,
            brs: sent.brs,
            dlc: sent.dlc,
            timestamp: time,
        };
        // The place is the one after the youngest. With nothing held it is left open until it is read.
        let place = match self.events.back() {
            Some((youngest, _)) if *youngest != u32::MAX => (youngest + 1) % r.events_size(),
            _ => u32::MAX,
        };
        self.events.push_back((place, event));
        self.flags.insert(12);
        if self.events.len() as u32 == r.events_watermark() {
            self.flags.insert(13);
        }
        if self.events.len() as u32 == r.events_size() {
            self.flags.insert(14);
        }
        self.note("event kept");
    }

    /// The state and record must show the same as this account.
    fn agrees(&mut self, state: &State, record: &Record) {
        let r = &state.registers;
        for (fifo, ring) in [state.fifo0, state.fifo1].into_iter().enumerate() {
            assert_eq!(ring.fill as usize, self.fifo[fifo].len());
            assert!(ring.fill <= r.fifo_size(fifo as u32));
            if let Some(oldest) = self.fifo[fifo].front() {
                assert_eq!(ring.oldest, oldest.place);
            }
        }
        assert_eq!(state.events.fill as usize, self.events.len());
        assert!(state.events.fill <= r.events_size());
        // Places of events that were left open follow from the oldest.
        for (age, (place, _)) in self.events.iter_mut().enumerate() {
            let expected = (state.events.oldest + age as u32) % r.events_size();
            if *place == u32::MAX {
                *place = expected;
            }
            assert_eq!(*place, expected);
        }
        if r.queue_mode() {
            assert_eq!(state.shared, Ring::default());
        } else {
            assert_eq!(state.shared.fill as usize, self.row.len());
            if let Some(oldest) = self.row.front() {
                assert_eq!(r.dedicated() + state.shared.oldest, *oldest);
            }
        }
        let word = |set: &BTreeSet<u32>| set.iter().fold(0u32, |word, at| word | 1 << at);
        assert_eq!(state.pending, self.pending.keys().fold(0u32, |word, at| word | 1 << at));
        assert_eq!(state.sent, word(&self.sent));
        assert_eq!(state.cancelled, word(&self.cancelled));
        assert_eq!(state.new_data, self.buffers.keys().fold(0u64, |word, at| word | 1 << at));
        assert_eq!(record.flags, word(&self.flags));
        assert_eq!(record.priority, self.priority);
    }
}

/// What a read should answer for a kept frame.
fn check_read(kept: &Kept, code: u32, read: Read, output: &[u8], before: &[u8]) {
    let f = &kept.frame;
    let expected = RxHeader {
        id: f.id,
        xtd: f.xtd,
        rtr: f.rtr,
        fdf: f.fdf,
        brs: f.brs,
        esi: f.esi,
        dlc: f.dlc,
        anmf: kept.index.is_none(),
        index: kept.index.unwrap_or(0),
        timestamp: kept.time,
    };
    assert_eq!(read.header, expected);
    let room = [8, 12, 16, 20, 24, 32, 48, 64][code as usize];
    let bytes = kept.data.len().min(room);
    assert_eq!(read.bytes as usize, bytes);
    assert_eq!(output[..bytes], kept.data[..bytes]);
    assert_eq!(output[bytes..], before[bytes..]);
}

/// The words of element `number` in a section.
fn element_range(r: &Registers, section: usize, number: u32) -> std::ops::Range<usize> {
    let each = match section {
        RX_FIFO_0 => size_words(r.rxesc & 7),
        RX_FIFO_1 => size_words(r.rxesc >> 4 & 7),
        RX_BUFFERS => size_words(r.rxesc >> 8 & 7),
        TX_EVENTS => 2,
        _ => size_words(r.txesc & 7),
    };
    let start = (sections(r)[section].start + number * each) as usize;
    start..start + each as usize
}

/// Nothing but the named words may have changed.
fn changed_only(before: &[u32], after: &[u32], allowed: std::ops::Range<usize>) {
    assert!(before[..allowed.start] == after[..allowed.start]);
    assert!(before[allowed.end..] == after[allowed.end..]);
}

/// Mostly a number below the limit, sometimes one past it.
fn mostly_below(random: &mut Random, limit: u32) -> u32 {
    if random.once_in(12) {
        random.odd_word()
    } else {
        random.below(limit + 1)
    }
}

/// One history: a start from legal registers and many calls.
fn history(random: &mut Random, registers: Registers, calls: u32, tally: &mut BTreeMap<&'static str, u64>) {
    let mut memory = arbitrary_memory(random, registers.memory_words as usize);
    put_filters(random, &registers, &mut memory);
    let (mut state, mut record) = arbitrary_state(random);
    start(&mut state, &mut record, registers, memory.len()).expect("legal registers are accepted");
    let r = registers;
    let mut account = Account::default();
    account.agrees(&state, &record);

    for _ in 0..calls {
        // The filters are the caller's words and may change between calls.
        if random.once_in(300) {
            put_filters(random, &registers, &mut memory);
        }
        // A memory of another length is not the one that was given.
        if random.once_in(50) {
            let length = other_length(random, r.memory_words, MEMORY_MOST + 8);
            let lent = arbitrary_memory(random, length as usize);
            assert_eq!(status(&state, &record, &lent), Err(20));
        }
        let before = (state, record, memory.clone());
        let output_length = if random.once_in(20) { 63 } else { 64 };
        let mut output = random.bytes(output_length);
        let output_before = output.clone();
        let (s, c, m) = (&mut state, &mut record, &mut memory[..]);
        let refusal: Option<u32> = match random.below(20) {
            0..=5 => {
                let (frame, data) =
                    if random.once_in(10) { arbitrary_frame(random) } else { well_formed_frame(random) };
                let time = random.word() as u16;
                let answer = receive(s, c, m, &frame, &data, time);
                if let Ok(answer) = answer {
                    let written = match answer.outcome {
                        Outcome::Stored { fifo, place } => element_range(&r, RX_FIFO_0 + fifo as usize, place),
                        Outcome::StoredBuffer { buffer } => element_range(&r, RX_BUFFERS, buffer),
                        _ => 0..0,
                    };
                    changed_only(&before.2, m, written);
                    account.received(&r, answer, &frame, &data, time);
                    account.priority(&r, m, answer, &frame);
                }
                answer.err()
            }
            6 => {
                let fifo = mostly_below(random, 1);
                let size = r.fifo_size(fifo);
                let place = mostly_below(random, size);
                let answer = read_fifo(s, c, m, fifo, place, &mut output);
                let kept = account.fifo.get(fifo as usize).and_then(|list| list.iter().find(|k| k.place == place));
                match answer {
                    Ok(read) => {
                        check_read(kept.expect("held"), r.fifo_size_code(fifo), read, &output, &output_before);
                        account.note("read");
                    }
                    Err(number) => {
                        let expected = if fifo > 1 || place >= size {
                            23
                        } else if kept.is_none() {
                            29
                        } else {
                            30
                        };
                        assert_eq!(number, expected);
                    }
                }
                answer.err()
            }
            7 => {
                let fifo = mostly_below(random, 1);
                let place = mostly_below(random, r.fifo_size(fifo));
                let answer = acknowledge_fifo(s, c, m, fifo, place);
                if answer.is_ok() {
                    let list = &mut account.fifo[fifo as usize];
                    while list.pop_front().expect("held").place != place {}
                    account.note("acknowledged");
                }
                answer.err()
            }
            8 => {
                let buffer = mostly_below(random, r.rx_buffers);
                let answer = read_rx_buffer(s, c, m, buffer, &mut output);
                if let Ok(read) = answer {
                    let kept = account.buffers.get(&buffer).expect("held");
                    check_read(kept, r.rx_buffer_size_code(), read, &output, &output_before);
                    account.note("buffer read");
                }
                answer.err()
            }
            9 => {
                let buffer = mostly_below(random, r.rx_buffers);
                let answer = release_rx_buffer(s, c, m, buffer);
                assert_eq!(answer.is_ok(), account.buffers.remove(&buffer).is_some());
                answer.err()
            }
            10 | 11 => {
                let buffer = mostly_below(random, r.dedicated());
                let (frame, data) =
                    if random.once_in(10) { arbitrary_frame(random) } else { well_formed_frame(random) };
                let (marker, wish) = (random.word() as u8, random.coin());
                let answer = request_dedicated(s, c, m, buffer, &frame, &data, marker, wish);
                if let Ok(given) = answer {
                    assert_eq!(given, buffer);
                    changed_only(&before.2, m, element_range(&r, TX_BUFFERS, buffer));
                    assert!(account.pending.insert(buffer, Asked { frame, data, marker, wish }).is_none());
                    account.sent.remove(&buffer);
                    account.cancelled.remove(&buffer);
                    account.note("dedicated");
                }
                answer.err()
            }
            12 | 13 => {
                let (frame, data) =
                    if random.once_in(10) { arbitrary_frame(random) } else { well_formed_frame(random) };
                let (marker, wish) = (random.word() as u8, random.coin());
                let answer = request_shared(s, c, m, &frame, &data, marker, wish);
                let part = r.dedicated()..r.tx_buffers();
                match answer {
                    Ok(buffer) => {
                        assert!(part.contains(&buffer));
                        changed_only(&before.2, m, element_range(&r, TX_BUFFERS, buffer));
                        if r.queue_mode() {
                            assert!((part.start..buffer).all(|lower| account.pending.contains_key(&lower)));
                        } else {
                            if let Some(last) = account.row.back() {
                                assert_eq!(buffer, part.start + (last - part.start + 1) % r.shared());
                            }
                            account.row.push_back(buffer);
                        }
                        assert!(account.pending.insert(buffer, Asked { frame, data, marker, wish }).is_none());
                        account.sent.remove(&buffer);
                        account.cancelled.remove(&buffer);
                        account.note("shared");
                    }
                    Err(25) => assert!(part.clone().all(|buffer| account.pending.contains_key(&buffer))),
                    Err(number) => assert_eq!(number, 21),
                }
                answer.err()
            }
            14 => {
                let buffer = mostly_below(random, r.tx_buffers());
                let answer = cancel(s, c, m, buffer);
                if answer.is_ok() {
                    assert!(buffer < r.dedicated() || r.queue_mode());
                    assert!(account.pending.remove(&buffer).is_some());
                    account.cancelled.insert(buffer);
                    account.flags.insert(10);
                    account.note("cancelled");
                }
                answer.err()
            }
            15 | 16 => {
                // The choice, and often the report of what it named.
                let passive = random.coin();
                let answer = choice(s, c, m, passive, &mut output);
                if let Ok(chosen) = answer {
                    assert_eq!(chosen.map(|chosen| chosen.buffer), account.best(&r));
                    if let Some(chosen) = chosen {
                        let asked = &account.pending[&chosen.buffer];
                        assert_eq!((chosen.marker, chosen.wish), (asked.marker, asked.wish));
                        let sent = sent_form(&r, &asked.frame, passive);
                        assert_eq!(chosen.header, sent);
                        let room = size_bytes(r.tx_size_code()) as usize;
                        let length = data_length(sent.rtr, sent.fdf, sent.dlc) as usize;
                        assert_eq!(chosen.bytes as usize, length);
                        for at in 0..64 {
                            let expected = if at >= length {
                                output_before[at]
                            } else if at >= room {
                                0xCC
                            } else {
                                asked.data[at]
                            };
                            assert_eq!(output[at], expected);
                        }
                        account.note("chosen");
                    } else {
                        assert_eq!(output, output_before);
                    }
                }
                if let (Ok(Some(chosen)), true) = (&answer, random.coin()) {
                    let time = random.word() as u16;
                    assert_eq!(report_sent(s, c, m, chosen.buffer, passive, time), Ok(()));
                    account.reported(&r, chosen.buffer, passive, time);
                    account.note("reported");
                }
                answer.err()
            }
            17 => {
                let buffer = mostly_below(random, r.tx_buffers());
                let (passive, time) = (random.coin(), random.word() as u16);
                let answer = report_sent(s, c, m, buffer, passive, time);
                assert_eq!(answer.is_ok(), account.best(&r) == Some(buffer));
                if answer.is_ok() {
                    let held = account.events.len();
                    account.reported(&r, buffer, passive, time);
                    let put = (before.0.events.oldest + before.0.events.fill).checked_rem(r.events_size());
                    match put {
                        Some(place) if account.events.len() > held => {
                            changed_only(&before.2, m, element_range(&r, TX_EVENTS, place))
                        }
                        _ => changed_only(&before.2, m, 0..0),
                    }
                }
                answer.err()
            }
            18 => {
                let place = mostly_below(random, r.events_size());
                let answer = read_event(s, c, m, place);
                let held = account.events.iter().find(|(at, _)| *at == place).map(|(_, event)| *event);
                assert_eq!(answer.ok(), held);
                let mut refusal = answer.err();
                if held.is_some() && random.coin() {
                    refusal = acknowledge_event(s, c, m, place).err();
                    assert_eq!(refusal, None);
                    while account.events.pop_front().expect("held").0 != place {}
                    account.note("event acknowledged");
                } else if held.is_none() {
                    assert_eq!(acknowledge_event(s, c, m, place).err(), refusal);
                }
                refusal
            }
            _ => {
                let mask = random.word() & random.word();
                assert_eq!(clear_flags(s, c, m, mask), Ok(()));
                account.flags.retain(|flag| mask >> flag & 1 == 0);
                let got = status(s, c, m).expect("fit");
                assert_eq!(got.pending as usize, account.pending.len());
                assert_eq!(got.fifo0.fill as usize, account.fifo[0].len());
                assert_eq!(got.fifo1.fill as usize, account.fifo[1].len());
                assert_eq!(got.events.fill as usize, account.events.len());
                assert_eq!(got.shared.fill as usize, account.row.len());
                for (ring, size) in [
                    (got.fifo0, r.fifo_size(0)),
                    (got.fifo1, r.fifo_size(1)),
                    (got.events, r.events_size()),
                    (got.shared, r.shared()),
                ] {
                    assert_eq!(ring.put, if size == 0 { 0 } else { (ring.oldest + ring.fill) % size });
                }
                None
            }
        };
        assert_ne!(refusal, Some(20), "never unfit after an accepted start");
        if refusal.is_some() {
            assert_eq!((state, record), (before.0, before.1));
            assert!(memory == before.2);
            assert_eq!(output, output_before);
        }
        account.agrees(&state, &record);
    }
    for (name, count) in account.accepted {
        *tally.entry(name).or_default() += count;
    }
}

#[test]
fn histories_from_legal_starts() {
    let mut tally = BTreeMap::new();
    let mut random = Random::new(1);
    // 300 starts with 1,000 calls each, on memories of any length.
    for _ in 0..300 {
        let registers = legal_registers(&mut random);
        history(&mut random, registers, 1000, &mut tally);
    }
    // Histories of 100,000 calls without a new start.
    for memory_words in [BENCH_MEMORY_WORDS, MEMORY_MOST] {
        let mut random = Random::new(7);
        let registers = legal_registers_for(&mut random, memory_words);
        history(&mut random, registers, 100_000, &mut tally);
    }
    println!("{tally:?}");
    // Everything that can happen has happened, and more than once.
    for name in [
        "stored",
        "overwritten",
        "lost",
        "stored in a buffer",
        "remote",
        "reject",
        "no match",
        "priority only",
        "debug",
        "misfiled",
        "locked",
        "read",
        "acknowledged",
        "buffer read",
        "dedicated",
        "shared",
        "cancelled",
        "chosen",
        "reported",
        "event kept",
        "event lost",
        "event acknowledged",
    ] {
        assert!(tally.get(name).copied().unwrap_or(0) > 20, "{name} hardly happened");
    }
}

#[test]
fn generators_keep_their_word() {
    let mut random = Random::new(2);
    let mut numbers = BTreeMap::new();
    let mut lengths = BTreeMap::new();
    for _ in 0..20_000 {
        let legal = legal_registers(&mut random);
        assert!(layout_verdict(&legal, legal.memory_words as usize).is_ok(), "{legal:x?}");
        *lengths.entry(legal.memory_words).or_insert(0u32) += 1;
        let near = nearly_legal_registers(&mut random);
        let number = layout_verdict(&near, near.memory_words as usize).err().map_or(0, |no| no.number);
        *numbers.entry(number).or_insert(0u32) += 1;
        let (frame, data) = well_formed_frame(&mut random);
        assert!(!malformed(&frame, &data));
        let (state, record) = fit_state(&mut random);
        assert!(!unfit(&state, &record, state.registers.memory_words as usize), "{state:?}");

        let wrong = Registers { memory_words: wrong_length(&mut random), ..legal };
        assert_eq!(layout_verdict(&wrong, wrong.memory_words as usize).map_err(|no| no.number), Err(10));
        let other = other_length(&mut random, legal.memory_words, MEMORY_MOST + 8);
        assert_eq!(layout_verdict(&legal, other as usize).map_err(|no| no.number), Err(10));
    }
    println!("{numbers:?}");
    for number in [0, 10, 11, 12, 13, 14, 15] {
        assert!(numbers.get(&number).copied().unwrap_or(0) > 20, "{number} hardly happened");
    }
    for length in [1, 2559, 2560, 2561, 4351, 4352] {
        assert!(lengths.get(&length).copied().unwrap_or(0) > 20, "{length} words were hardly given");
    }
    assert!(lengths.range(2..=100).count() > 90, "small lengths were hardly given");
    assert!(lengths.len() > 1000, "{} lengths were given", lengths.len());
}

#[test]
fn same_seed_same_inputs() {
    let mut one = Random::new(3);
    let mut two = Random::new(3);
    for _ in 0..100 {
        assert_eq!(nearly_legal_registers(&mut one), nearly_legal_registers(&mut two));
        assert_eq!(arbitrary_frame(&mut one), arbitrary_frame(&mut two));
    }
    assert_ne!(Random::new(0).word(), 0);
}

/// Which sections share a word, found by marking every word.
fn marked_pairs(all: &[Section; 7]) -> Option<(u32, u32)> {
    let mut pairs = BTreeSet::new();
    let mut owners: BTreeMap<u32, Vec<u32>> = BTreeMap::new();
    for (section, place) in all.iter().enumerate() {
        for at in place.start..place.start + place.words {
            owners.entry(at).or_default().push(section as u32);
        }
    }
    for list in owners.values() {
        for (nth, lower) in list.iter().enumerate() {
            for higher in &list[nth + 1..] {
                pairs.insert((*lower, *higher));
            }
        }
    }
    pairs.first().copied()
}

#[test]
fn overlaps_found_by_marking_words() {
    let mut random = Random::new(4);
    let mut seen = 0;
    for _ in 0..3_000 {
        let registers = nearly_legal_registers(&mut random);
        match layout_verdict(&registers, registers.memory_words as usize) {
            Ok(all) => assert_eq!(marked_pairs(&all), None),
            Err(no) if no.number == 15 => {
                assert_eq!(marked_pairs(&sections(&registers)), Some((no.first, no.second)));
                seen += 1;
            }
            Err(_) => {}
        }
    }
    assert!(seen > 100);
}

#[test]
fn rank_is_the_order_on_the_bus() {
    let mut random = Random::new(5);
    for _ in 0..200_000 {
        let (one, _) = well_formed_frame(&mut random);
        let (two, _) = well_formed_frame(&mut random);
        let ranks = rank(one.id, one.xtd, one.rtr).cmp(&rank(two.id, two.xtd, two.rtr));
        assert_eq!(ranks, bus_bits(&one).cmp(&bus_bits(&two)), "{one:?} {two:?}");
    }
}

#[test]
fn hostile_inputs() {
    let mut random = Random::new(6);
    let mut answers: BTreeMap<(u32, u32), u64> = BTreeMap::new();
    let room = MEMORY_MOST + 16;
    let mut memory = arbitrary_memory(&mut random, room as usize);
    for round in 0..400_000u32 {
        let (mut state, mut record) = match random.below(4) {
            0 => arbitrary_state(&mut random),
            1 => nearly_fit_state(&mut random),
            _ => fit_state(&mut random),
        };
        let call = 1 + round % 15;
        // What a start is given; the other calls go by what the state has.
        let registers = match random.below(3) {
            0 => arbitrary_registers(&mut random),
            1 => nearly_legal_registers(&mut random),
            _ => legal_registers(&mut random),
        };
        let given = if call == 1 { registers.memory_words } else { state.registers.memory_words };
        let lent = lent_length(&mut random, given, room) as usize;
        if random.once_in(50) {
            let at = random.below(MEMORY_MOST) as usize;
            memory[at..].iter_mut().take(200).for_each(|word| *word = random.odd_word());
        }
        let before = (state, record, memory.clone());
        let (s, c, m) = (&mut state, &mut record, &mut memory[..lent]);
        let (frame, data) =
            if random.coin() { arbitrary_frame(&mut random) } else { well_formed_frame(&mut random) };
        let output_length = if random.once_in(10) { random.below(70) as usize } else { 64 };
        let mut output = random.bytes(output_length);
        let output_before = output.clone();
        let number = match random.below(3) {
            0 => random.below(3),
            1 => random.below(66),
            _ => random.odd_word(),
        };
        let fifo = if random.once_in(10) { random.odd_word() } else { random.below(2) };
        let (passive, wish) = (random.coin(), random.coin());
        let (time, marker) = (random.word() as u16, random.word() as u8);
        // Which parts a call may change: state, record, memory, output.
        let (answer, changes) = match call {
            1 => (start(s, c, registers, lent).map(|_| ()).map_err(|no| no.number), [true, true, false, false]),
            2 => (receive(s, c, m, &frame, &data, time).map(|_| ()), [true, true, true, false]),
            3 => (read_fifo(s, c, m, fifo, number, &mut output).map(|_| ()), [false, false, false, true]),
            4 => (acknowledge_fifo(s, c, m, fifo, number), [true, false, false, false]),
            5 => (read_rx_buffer(s, c, m, number, &mut output).map(|_| ()), [false, false, false, true]),
            6 => (release_rx_buffer(s, c, m, number), [true, false, false, false]),
            7 => {
                let answer = request_dedicated(s, c, m, number, &frame, &data, marker, wish);
                (answer.map(|_| ()), [true, false, true, false])
            }
            8 => {
                let answer = request_shared(s, c, m, &frame, &data, marker, wish);
                (answer.map(|_| ()), [true, false, true, false])
            }
            9 => (cancel(s, c, m, number), [true, true, false, false]),
            10 => (choice(s, c, m, passive, &mut output).map(|_| ()), [false, false, false, true]),
            11 => {
                // Half of the reports name the true choice.
                let buffer = chosen_buffer(s, m).filter(|_| wish).unwrap_or(number);
                (report_sent(s, c, m, buffer, passive, time), [true, true, true, false])
            }
            12 => (read_event(s, c, m, number).map(|_| ()), [false, false, false, false]),
            13 => (acknowledge_event(s, c, m, number), [true, false, false, false]),
            14 => (clear_flags(s, c, m, random.word()), [false, true, false, false]),
            _ => (status(s, c, m).map(|_| ()), [false, false, false, false]),
        };
        let accepted = answer.is_ok();
        assert!(state == before.0 || (accepted && changes[0]));
        assert!(record == before.1 || (accepted && changes[1]));
        assert!(memory == before.2 || (accepted && changes[2]));
        assert!(output == output_before || (accepted && changes[3]));
        // A call on an unfit state gives 20, and an accepted call leaves a fit one.
        if call > 1 {
            assert_eq!(answer == Err(20), unfit(&before.0, &before.1, lent));
        }
        if accepted {
            assert!(!unfit(&state, &record, lent));
            assert_eq!(lent, given as usize);
        }
        *answers.entry((call, answer.err().unwrap_or(0))).or_default() += 1;
    }
    println!("{answers:?}");
    // Every refusal that the table gives a call was met, and no other.
    let table: [&[u32]; 15] = [
        &[0, 10, 11, 12, 13, 14, 15],
        &[0, 20, 21, 22],
        &[0, 20, 23, 29, 30],
        &[0, 20, 23, 29],
        &[0, 20, 23, 29, 30],
        &[0, 20, 23, 29],
        &[0, 20, 21, 23, 24],
        &[0, 20, 21, 25],
        &[0, 20, 23, 26, 27],
        &[0, 20, 30],
        &[0, 20, 23, 28],
        &[0, 20, 23, 29],
        &[0, 20, 23, 29],
        &[0, 20],
        &[0, 20],
    ];
    let expected: BTreeSet<(u32, u32)> =
        (1..=15).zip(table).flat_map(|(call, numbers)| numbers.iter().map(move |n| (call, *n))).collect();
    assert_eq!(answers.keys().copied().collect::<BTreeSet<_>>(), expected);
}

#[test]
fn hostile_inputs_to_the_single_rules() {
    let mut random = Random::new(8);
    for _ in 0..100_000 {
        let (state, record) = arbitrary_state(&mut random);
        let r = &state.registers;
        let lent = random.below(20) as usize;
        let mut memory = arbitrary_memory(&mut random, lent);
        let (frame, data) = arbitrary_frame(&mut random);
        let (a, b) = (random.odd_word(), random.odd_word());
        sections(r);
        let _ = layout_verdict(r, lent);
        unfit(&state, &record, r.memory_words as usize);
        malformed(&frame, &data);
        data_length(frame.rtr, frame.fdf, a);
        standard_matches(&standard_filter(a), b);
        extended_matches(&extended_filter(a, b), frame.id, b);
        first_match(r, &memory, frame.id, frame.xtd);
        destination(r, &memory, &frame);
        held_places(state.shared, a & 0x7F).count();
        put_place(state.fifo0, a);
        rank(a, frame.xtd, frame.rtr);
        candidates(&state);
        chosen_buffer(&state, &memory);
        let sent = as_sent(r, a, b, frame.esi);
        put_sent_bytes(&memory, &sent, &mut [0; 64]);
        put_element(&mut memory, rx_header_words(&frame, Some(a), 0), &data);
        put_element(&mut memory, tx_header_words(&frame, 0, frame.brs), &data);
        event_words(&frame, 0, 0);
        event_fields(a, b);
        rx_header(a, b);
        priority_word(frame.xtd, a, b, a);
        layout_printout(&data);
    }
}
