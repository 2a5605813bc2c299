//! The fields of a record in the order in which a codec line has them, which is that of their
//! bytes.

use crate::pdu::{Header, Modulation, NetworkHeader, Signal, Transmitter};

/// Goes over the fields of a record, one after the other.
pub trait Visitor {
    /// What a field of this value is to hold now; `most` is the largest number of its type.
    fn visit(&mut self, value: u64, most: u64) -> u64;
}

pub trait Fields {
    fn visit(&mut self, fields: &mut Visit);
}

/// A visit of some fields.
pub struct Visit<'a>(pub &'a mut dyn Visitor);

impl Visit<'_> {
    fn number<T>(&mut self, field: &mut T) -> &mut Self
    where
        T: Copy + Into<u64> + TryFrom<u64>,
    {
        let most = u64::MAX >> (u64::BITS - 8 * size_of::<T>() as u32);
        let value = self.0.visit((*field).into(), most);
        *field = T::try_from(value).unwrap_or(*field);
        self
    }

    fn part(&mut self, part: &mut impl Fields) -> &mut Self {
        part.visit(self);
        self
    }
}

impl Fields for Header {
    fn visit(&mut self, fields: &mut Visit) {
        fields
            .number(&mut self.version)
            .number(&mut self.exercise)
            .number(&mut self.timestamp)
            .number(&mut self.status)
            .number(&mut self.site)
            .number(&mut self.application)
            .number(&mut self.entity)
            .number(&mut self.radio);
    }
}

impl Fields for Transmitter {
    fn visit(&mut self, fields: &mut Visit) {
        fields
            .part(&mut self.header)
            .number(&mut self.entity_kind)
            .number(&mut self.domain)
            .number(&mut self.country)
            .number(&mut self.nomenclature_version)
            .number(&mut self.nomenclature)
            .number(&mut self.transmit_state);
        for coordinate in &mut self.antenna_location {
            fields.number(coordinate);
        }
        for coordinate in &mut self.relative_location {
            fields.number(coordinate);
        }
        fields
            .number(&mut self.pattern_type)
            .number(&mut self.frequency)
            .number(&mut self.bandwidth)
            .number(&mut self.power)
            .number(&mut self.spread_spectrum)
            .number(&mut self.crypto_system)
            .number(&mut self.key_id)
            .part(&mut self.modulation);
    }
}

impl Fields for Modulation {
    fn visit(&mut self, fields: &mut Visit) {
        fields
            .number(&mut self.tsa_level)
            .number(&mut self.primary_mode)
            .number(&mut self.secondary_mode)
            .number(&mut self.sync_state)
            .number(&mut self.sync_id);
    }
}

impl Fields for Signal {
    fn visit(&mut self, fields: &mut Visit) {
        fields
            .part(&mut self.header)
            .number(&mut self.encoding)
            .number(&mut self.sample_rate)
            .number(&mut self.samples)
            .part(&mut self.network);
    }
}

impl Fields for NetworkHeader {
    fn visit(&mut self, fields: &mut Visit) {
        fields
            .number(&mut self.npg)
            .number(&mut self.net)
            .number(&mut self.tsec)
            .number(&mut self.msec)
            .number(&mut self.message_type)
            .number(&mut self.epoch)
            .number(&mut self.slot)
            .number(&mut self.transmit_time);
    }
}

/// Keeps each field, and prints it behind a space.
impl Visitor for String {
    fn visit(&mut self, value: u64, _: u64) -> u64 {
        *self += &format!(" {value}");
        value
    }
}

/// The fields of a record, a space before each.
pub fn print<R: Fields + Copy>(record: &R) -> String {
    let mut text = String::new();
    let mut record = *record;
    record.visit(&mut Visit(&mut text));
    text
}
