//! Lines for the codec program: datagrams to read live and as old captures, records to write with
//! good and bad fields, and what was written to read back.

use super::datagrams::Generator;
use crate::codec::fields::{Fields, Visit, Visitor};
use crate::codec::Line;
use crate::pdu::read::read_archive;
use crate::pdu::write::write;
use crate::pdu::*;
use crate::random::Random;
use crate::trunk::script::BYTES_MAX;

pub struct CodecLines {
    random: Random,
    datagrams: Generator,
}

impl CodecLines {
    pub fn new(seed: u64) -> Self {
        let mut random = Random::new(seed);
        CodecLines {
            datagrams: Generator::new(random.next()),
            random,
        }
    }

    /// A few lines: one of any sort, and those that follow from it.
    pub fn next(&mut self) -> Vec<Line> {
        match self.random.below(8) {
            0..=3 => self.read_and_write(),
            4 | 5 => self.write_transmitter(),
            _ => self.write_signal(),
        }
    }

    /// A datagram of any sort, by both readings; where archive reading takes its first PDU, that is
    /// written from what was read, which is refused where it is voice.
    fn read_and_write(&mut self) -> Vec<Line> {
        let mut datagram = self.datagrams.datagram();
        datagram.truncate(BYTES_MAX);
        let written = match read_archive(&datagram) {
            Ok(Pdu::Transmitter(record)) => {
                let room = self.room(TRANSMITTER_SIZE);
                Some(Line::WriteTransmitter(record, room))
            }
            Ok(pdu @ Pdu::Signal(record, body)) => {
                let room = self.room(pdu.size());
                Some(Line::WriteSignal(record, body.to_vec(), room))
            }
            Err(_) => None,
        };
        let readings = [Line::Read(datagram.clone()), Line::Archive(datagram)];
        readings.into_iter().chain(written).collect()
    }

    /// A Transmitter whose fields without a rule are often 0 or the largest of their type, in half
    /// of the lines with one field damaged; what is written is read back.
    fn write_transmitter(&mut self) -> Vec<Line> {
        let datagram = self.datagrams.transmitter();
        let Ok(Pdu::Transmitter(drawn)) = read_archive(&datagram) else {
            return Vec::new();
        };
        let mut record = drawn;
        record.visit(&mut Visit(&mut Extremes(&mut self.random)));
        self.version_and_status(&mut record.header, &drawn.header);
        let sync_id = record.modulation.sync_id;
        record.modulation = drawn.modulation;
        if drawn.modulation.tsa_level > LAST_LEVEL_WITHOUT_ID {
            record.modulation.sync_id = sync_id;
        }
        self.damage(&mut record);
        let room = self.room(TRANSMITTER_SIZE);
        let line = Line::WriteTransmitter(record, room);
        with_read_back(line, &Pdu::Transmitter(record), room)
    }

    /// The same of a Signal, which may be voice, with its own body or another one.
    fn write_signal(&mut self) -> Vec<Line> {
        let datagram = self.datagrams.signal_or_voice();
        let Ok(Pdu::Signal(drawn, body)) = read_archive(&datagram) else {
            return Vec::new();
        };
        let mut record = drawn;
        record.visit(&mut Visit(&mut Extremes(&mut self.random)));
        self.version_and_status(&mut record.header, &drawn.header);
        record.encoding = drawn.encoding;
        record.network = NetworkHeader {
            transmit_time: record.network.transmit_time,
            ..drawn.network
        };
        self.damage(&mut record);
        self.last_epoch(&mut record.network);
        let body = self.body(body);
        let pdu = Pdu::Signal(record, &body);
        let room = self.room(pdu.size().min(BYTES_MAX));
        let line = Line::WriteSignal(record, body.clone(), room);
        with_read_back(line, &pdu, room)
    }

    /// The version is the one drawn. The status, which may be the largest, is most often left out of
    /// versions 5 and 6.
    fn version_and_status(&mut self, header: &mut Header, drawn: &Header) {
        header.version = drawn.version;
        if !has_status(drawn.version) && !self.random.one_in(4) {
            header.status = 0;
        }
    }

    /// In half of the records one field takes another value.
    fn damage(&mut self, record: &mut impl Fields) {
        if self.random.one_in(2) {
            let mut count = Count(0);
            record.visit(&mut Visit(&mut count));
            let field = self.random.below(count.0);
            let random = &mut self.random;
            record.visit(&mut Visit(&mut Damage { random, field }));
        }
    }

    /// In one record of 16 the slot is at or beside the last one of the last epoch, which the other
    /// changes seldom meet.
    fn last_epoch(&mut self, network: &mut NetworkHeader) {
        if self.random.one_in(16) {
            network.epoch = LAST_EPOCH;
            network.slot = LAST_SLOT_OF_LAST_EPOCH - 1 + self.random.below(3) as u32;
        }
    }

    /// This body, or one of a size at or beside a limit, or of any size.
    fn body(&mut self, body: &[u8]) -> Vec<u8> {
        let words = self.random.below(WORDS_MAX as u64 + 3) as usize;
        let near = self.random.below(3) as usize;
        let size = match self.random.below(12) {
            0 => words_size(words) + near - 1,
            1 => words_size(WORDS_MAX + 1),
            2 => BODY_MAX + near - 1,
            3 => self.random.below(BYTES_MAX as u64 + 1) as usize,
            _ => return body.to_vec(),
        };
        self.random.bytes(size)
    }

    /// Most often just enough; sometimes too little, sometimes more.
    fn room(&mut self, enough: usize) -> usize {
        match self.random.below(12) {
            0 => enough - 1,
            1 => self.random.below(enough as u64) as usize,
            2 | 3 => self.random.within(enough as u64, BYTES_MAX as u64) as usize,
            _ => enough,
        }
    }
}

/// The line; and what it writes, to be read back.
fn with_read_back(line: Line, pdu: &Pdu, room: usize) -> Vec<Line> {
    let mut output = vec![0; room];
    let written = write(pdu, &mut output).ok();
    let read_back = written.map(|size| Line::Read(output[..size].to_vec()));
    [Some(line), read_back].into_iter().flatten().collect()
}

/// Gives some fields the value 0, and some the largest of their type.
struct Extremes<'a>(&'a mut Random);

impl Visitor for Extremes<'_> {
    fn visit(&mut self, value: u64, most: u64) -> u64 {
        match self.0.below(8) {
            0 => 0,
            1 => most,
            _ => value,
        }
    }
}

/// Gives one field, counted from 0, another value.
struct Damage<'a> {
    random: &'a mut Random,
    field: u64,
}

impl Visitor for Damage<'_> {
    fn visit(&mut self, value: u64, most: u64) -> u64 {
        let is_field = self.field == 0;
        self.field = self.field.wrapping_sub(1);
        if !is_field {
            return value;
        }
        match self.random.below(8) {
            0 | 1 => 0,
            2 | 3 => most,
            4 => value.wrapping_add(1) & most,
            5 => value.wrapping_sub(1) & most,
            6 => (value ^ 1 << self.random.below(64)) & most,
            _ => self.random.next() & most,
        }
    }
}

struct Count(u64);

impl Visitor for Count {
    fn visit(&mut self, value: u64, _: u64) -> u64 {
        self.0 += 1;
        value
    }
}
