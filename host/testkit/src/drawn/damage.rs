//! Random damage to files with a pending log: fields set to awkward values, mostly with checksums that agree again, and bytes,
//! lengths and capacities changed at random.
use super::draw::{capacity, Draw};
use super::fields::{interesting, of_file, of_log, reseal, Field};
use super::files::{bases, Base};
use crate::closing::place;
use crate::image::{put64, seal, Image, HEADERS, SECTOR};
use crate::random::Random;
use crate::sample::M;

/// The files that are damaged, and where their fields are.
pub struct Damage {
    bases: Vec<Base>,
    fields: Vec<Vec<Vec<Field>>>,
}

/// A damaged file: how long it is said to be, and the capacity that it may grow to.
pub struct Damaged<'a> {
    pub base: &'a Base,
    pub case: Case<'a>,
    pub capacity: u64,
    pub length: u64,
}

impl Damage {
    pub fn new() -> Damage {
        let bases = bases();
        let fields = bases.iter().map(of_file).collect();
        Damage { bases, fields }
    }

    /// An image whose memory every drawn one can have.
    pub fn memory(&self) -> Image {
        self.bases[0].image.clone()
    }

    /// Draws a file with a log, or now and then none.
    pub fn sound<'a>(&'a self, random: &mut Random, image: &'a mut Image) -> Damaged<'a> {
        let chosen = random.below(self.bases.len() as u64) as usize;
        let base = &self.bases[chosen];
        let capacity = capacity(random, base);
        let draw = Draw { base, capacity };
        Damaged {
            base,
            case: Case::new(random, image, draw, &self.fields[chosen]),
            capacity,
            length: base.image.length,
        }
    }

    /// The same, damaged, or now and then not.
    pub fn draw<'a>(&'a self, random: &mut Random, image: &'a mut Image) -> Damaged<'a> {
        let mut drawn = self.sound(random, image);
        for _ in 0..random.pick(&[0, 1, 1, 1, 1, 2, 2, 3]) {
            drawn.case.damage(random);
        }
        if random.one_in(8) {
            drawn.length = other_length(random, drawn.length, drawn.capacity);
        }
        drawn
    }
}

impl Default for Damage {
    fn default() -> Damage {
        Damage::new()
    }
}

/// A file that is being damaged: where its fields are, those of its log apart, and where its log's entries start.
pub struct Case<'a> {
    pub image: &'a mut Image,
    fields: &'a [Vec<Field>],
    log_fields: Vec<Field>,
    starts: Vec<usize>,
}

impl<'a> Case<'a> {
    /// Draws a log for a file. Some have none, with an identifier that says so or not.
    fn new(
        random: &mut Random,
        image: &'a mut Image,
        draw: Draw,
        fields: &'a [Vec<Field>],
    ) -> Case<'a> {
        draw.base.copy_to(image);
        let starts = match random.below(16) {
            0 => Vec::new(),
            1 => {
                image.header(HEADERS[0], 3, [0; 16]);
                Vec::new()
            }
            _ => draw.log(random, image),
        };
        Case {
            log_fields: of_log(image, &starts),
            image,
            fields,
            starts,
        }
    }

    /// Damages the file once more.
    pub fn damage(&mut self, random: &mut Random) {
        let field = match random.below(16) {
            0 => self.spoil_bytes(random),
            1 => self.copy_sector(random),
            2 => self.copy_field(random),
            _ => self.set_field(random),
        };
        let both = random.one_in(2);
        let twin = twin(field).filter(|_| both);
        if let Some(twin) = twin {
            let range = field.at..field.at + field.width;
            self.image.buffer.copy_within(range, twin.at);
        }
        if !random.one_in(8) {
            for at in [Some(field), twin].into_iter().flatten().map(|f| f.at) {
                reseal(self.image, &self.starts, at);
            }
        }
    }

    /// The fields of some part of the file.
    fn group(&self, random: &mut Random) -> &[Field] {
        let chosen = random.below(self.fields.len() as u64 + 1) as usize;
        match self.fields.get(chosen) {
            None if self.log_fields.is_empty() => &self.fields[0],
            None => &self.log_fields,
            Some(group) => group,
        }
    }

    fn field(&self, random: &mut Random) -> Field {
        let group = self.group(random);
        random.pick(group)
    }

    fn set_field(&mut self, random: &mut Random) -> Field {
        let field = self.field(random);
        let bytes = &mut self.image.buffer[field.at..field.at + field.width];
        if field.width == 16 {
            bytes[random.below(16) as usize] ^= 1 << random.below(8);
            return field;
        }
        let mut old = [0; 8];
        old[..field.width].copy_from_slice(bytes);
        let value = interesting(random, u64::from_le_bytes(old));
        bytes.copy_from_slice(&value.to_le_bytes()[..field.width]);
        field
    }

    /// Gives a field the value of another one of its kind.
    fn copy_field(&mut self, random: &mut Random) -> Field {
        let group = self.group(random);
        let to = random.pick(group);
        let same: Vec<Field> = group
            .iter()
            .copied()
            .filter(|f| f.width == to.width)
            .collect();
        let from = random.pick(&same);
        self.image
            .buffer
            .copy_within(from.at..from.at + from.width, to.at);
        to
    }

    /// Copies a sector of the log to another place in it.
    fn copy_sector(&mut self, random: &mut Random) -> Field {
        let sectors = (self.image.log_length / SECTOR) as u64;
        let from = match self.starts.as_slice() {
            [] => 0,
            starts => random.pick(starts),
        };
        let to = random.below(sectors) as usize;
        let log = self.image.log_mut();
        log.copy_within(from * SECTOR..(from + 1) * SECTOR, to * SECTOR);
        self.starts.push(to);
        Field {
            at: self.image.log_offset + to * SECTOR,
            width: SECTOR,
        }
    }

    /// Gives the first header the sequence number that no other follows.
    pub fn set_greatest_number(&mut self) {
        let header = &mut self.image.buffer[place(0)];
        put64(header, 8, u64::MAX);
        seal(header);
    }

    /// Puts random bytes anywhere in the file.
    fn spoil_bytes(&mut self, random: &mut Random) -> Field {
        let width = random.pick(&[1, 1, 8, 512]);
        // most of a file is zeros that mean nothing
        let at = match random.below(4) {
            0 => random.below(self.image.length - 512) as usize,
            1 => random.below(16) as usize,
            _ => self.field(random).at,
        };
        random.fill(&mut self.image.buffer[at..at + width]);
        Field { at, width }
    }
}

/// The same field in the other header or the other copy of the region table. Each copy is 64 KiB from its twin.
fn twin(field: Field) -> Option<Field> {
    let at = match field.at / 65536 {
        1 | 3 => field.at + 65536,
        2 | 4 => field.at - 65536,
        _ => return None,
    };
    Some(Field { at, ..field })
}

/// A length that is not the file's: shorter, longer, or any number.
fn other_length(random: &mut Random, length: u64, capacity: u64) -> u64 {
    match random.below(8) {
        0 => interesting(random, length),
        1 => M - random.below(2),
        2 => capacity + random.below(2),
        3 => random.below(length),
        4 => length.saturating_sub(random.below(5) * M),
        _ => length - random.below(10_000),
    }
}
