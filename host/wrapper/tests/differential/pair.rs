//! A file in two buffers, one for the proved library and one for the model: every call is made on both, and both have to answer
//! the same and leave the same bytes.
use crate::tally::Tally;
use shrunvaki_testkit::closing::WRITER;
use shrunvaki_testkit::image::Image;
use shrunvaki_testkit::pending::assert_same;
use shrunvaki_testkit::random::Random;
use shrunvaki_testkit::vhdx::{self, Attachment, Closed, Extent, Facts, Lookup, Plan, Stepped};
use vhdx_model as model;

#[derive(Default)]
pub struct Pair {
    proved: Vec<u8>,
    model: Vec<u8>,
    /// Of the buffer that calls are given, which may be shorter than the ones here: what is past it is compared too. It may change
    /// between calls.
    capacity: usize,
    pub length: u64,
    pub tally: Tally,
}

impl Pair {
    /// Takes up another file, in its whole buffer.
    pub fn load(&mut self, image: &Image) {
        self.load_with(&image.buffer, image.buffer.len() as u64, image.length);
    }

    /// Takes up another file, in the first `capacity` bytes of its buffer.
    pub fn load_with(&mut self, buffer: &[u8], capacity: u64, length: u64) {
        for copy in [&mut self.proved, &mut self.model] {
            copy.clear();
            copy.extend_from_slice(buffer);
        }
        (self.capacity, self.length) = (capacity as usize, length);
        self.tally.files += 1;
    }

    /// The buffer that calls are given.
    pub fn buffer(&self) -> &[u8] {
        &self.model[..self.capacity]
    }

    /// Writes bytes that no call wrote: what an interrupted one left.
    pub fn put(&mut self, at: usize, bytes: &[u8]) {
        for copy in [&mut self.proved, &mut self.model] {
            copy[at..at + bytes.len()].copy_from_slice(bytes);
        }
    }

    /// The file, without the rest of its buffer.
    pub fn file(&self) -> &[u8] {
        &self.model[..self.length as usize]
    }

    /// Takes up what is left of the file, in another part of the buffers here, which holds at least so many bytes, and anything past the
    /// file's end.
    pub fn reopen(&mut self, random: &mut Random, file: &[u8], least: u64) {
        let most = self.model.len() as u64;
        let capacity = match random.below(4) {
            0 => least,
            1 => most,
            _ => least + random.below(most - least + 1),
        };
        (self.capacity, self.length) = (capacity as usize, file.len() as u64);
        let mut bytes = file.to_vec();
        bytes.resize(self.capacity, 0);
        random.fill(&mut bytes[file.len()..]);
        self.put(0, &bytes);
    }

    /// The plan of the log's work, unless attach refuses.
    pub fn plan(&self) -> Option<model::Plan> {
        model::plan(self.buffer(), self.length).ok()
    }

    /// Attaches, and holds what is answered to what was planned.
    #[track_caller]
    pub fn attach(&mut self) -> Attachment {
        let planned = vhdx::plan(&self.proved[..self.capacity], self.length);
        let answer = vhdx::attach(&mut self.proved[..self.capacity], self.length);
        let expected = model::attach(&mut self.model[..self.capacity], self.length);
        assert_eq!(answer, expected, "attach at {}", self.length);
        assert_same(&self.proved, &self.model, "after attach");
        match planned {
            Plan::Refused(number) => assert_eq!(number, answer.refusal, "planned"),
            Plan::Apply { length, count } => {
                assert_eq!((length, count), (answer.length, answer.count), "planned");
                assert!(!(1..=8).contains(&answer.refusal), "none was planned");
            }
        }
        self.follow(answer.refusal, answer.length);
        answer
    }

    #[track_caller]
    pub fn step(&mut self, k: u64) -> Stepped {
        let answer = vhdx::step(&mut self.proved[..self.capacity], self.length, k);
        let expected = model::step(&mut self.model[..self.capacity], self.length, k);
        assert_eq!(answer, expected, "step {k} at {}", self.length);
        assert_same(&self.proved, &self.model, "after a step");
        self.follow(answer.refusal, answer.length);
        answer
    }

    #[track_caller]
    pub fn close(&mut self, identifier: &[u8; 16]) -> Closed {
        let answer = vhdx::close(&mut self.proved[..self.capacity], self.length, identifier);
        let expected = model::close(&mut self.model[..self.capacity], self.length, identifier);
        assert_eq!(answer, expected, "close at {}", self.length);
        assert_same(&self.proved, &self.model, "after close");
        self.follow(answer.refusal, answer.length);
        answer
    }

    #[track_caller]
    pub fn close_step(&mut self, identifier: &[u8; 16], k: u64) -> Stepped {
        let buffer = &mut self.proved[..self.capacity];
        let answer = vhdx::close_step(buffer, self.length, identifier, k);
        let buffer = &mut self.model[..self.capacity];
        let expected = model::close_step(buffer, self.length, identifier, k);
        assert_eq!(answer, expected, "step {k} of close at {}", self.length);
        assert_same(&self.proved, &self.model, "after a step of close");
        self.follow(answer.refusal, answer.length);
        answer
    }

    /// Attaches a file that is answered with a refusal, or 0. Before that it asks for steps, of which the last closes the log,
    /// and closes the file as it came.
    #[track_caller]
    pub fn answers(&mut self, image: &Image, refusal: u64, name: &str) -> Attachment {
        self.load(image);
        for k in [1, u64::MAX, 0, 1, 2] {
            self.step(k);
        }
        let header = self.plan().map_or(0, |plan| plan.count + 1);
        for k in [1, header + 1, header, header] {
            self.close_step(&WRITER, k);
        }
        self.load(image);
        self.close_step(&WRITER, 2);
        let closed = self.close(&WRITER).refusal;
        // closing reads no tables; it refuses as attach does, or by 23
        let as_attach = if refusal <= 8 { refusal } else { 0 };
        assert!(closed == as_attach || closed == 23, "{name}: {closed}");
        self.load(image);
        let answer = self.attach();
        assert_eq!(answer.refusal, refusal, "{name}");
        answer
    }

    /// The next call gets the length that this one left.
    fn follow(&mut self, refusal: u64, length: u64) {
        self.tally.add(refusal);
        self.length = length;
    }

    #[track_caller]
    pub fn lookup(&mut self, facts: &Facts, sector: u64) -> Lookup {
        let answer = vhdx::lookup(facts, &self.proved[..self.capacity], self.length, sector);
        let expected = model::lookup(facts, self.buffer(), self.length, sector);
        assert_eq!(answer, expected, "sector {sector} of {facts:?}");
        self.tally.add_place(answer);
        answer
    }

    #[track_caller]
    pub fn parent_key(&mut self, facts: &Facts, key: &[u8]) -> Extent {
        let answer = vhdx::parent_key(facts, &self.proved[..self.capacity], self.length, key);
        let expected = model::parent_key(facts, self.buffer(), self.length, key);
        assert_eq!(answer, expected, "key {key:?} of {facts:?}");
        self.tally.add_value(answer);
        answer
    }
}
