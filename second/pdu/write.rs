//! The writer, from document 01, with document 02, R-1, R-4 and R-9. Fields are put in the order of
//! their bytes.

use super::*;
use crate::bytes::Sink;

/// Writes a PDU at the start of the output and answers its size; a refusal changes no byte.
pub fn write(pdu: &Pdu, output: &mut [u8]) -> Result<usize, Refusal> {
    check_writable(pdu)?;
    let size = pdu.size();
    let output = output.get_mut(..size).ok_or(Refusal::Output)?;
    let mut sink = Sink::new(output);
    match pdu {
        Pdu::Transmitter(transmitter) => write_transmitter(transmitter, &mut sink),
        Pdu::Signal(signal, body) => write_signal(signal, body, size, &mut sink),
    }
    Ok(size)
}

/// Refusals 2 and 52, then 9 for a Transmitter or 10, 131 to 138, 50, 14 and 15 for a Signal.
fn check_writable(pdu: &Pdu) -> Result<(), Refusal> {
    check_version(pdu.header().version)?;
    check_status(pdu.header())?;
    match pdu {
        Pdu::Transmitter(transmitter) => check_modulation(&transmitter.modulation),
        Pdu::Signal(signal, body) => {
            require(signal.encoding <= LAST_ENCODING, Refusal::Encoding)?;
            check_network_header(&signal.network)?;
            check_retired(signal.network.message_type)?;
            check_body(signal.network.message_type, body.len())
        }
    }
}

fn write_header(header: &Header, pdu_type: u8, size: usize, sink: &mut Sink) {
    sink.u8(header.version)
        .u8(header.exercise)
        .u8(pdu_type)
        .u8(FAMILY)
        .u32(header.timestamp)
        .u16(size as u16)
        .u8(header.status)
        .zeros(START_PADDING)
        .u16(header.site)
        .u16(header.application)
        .u16(header.entity)
        .u16(header.radio);
}

fn write_transmitter(transmitter: &Transmitter, sink: &mut Sink) {
    write_header(
        &transmitter.header,
        TRANSMITTER_TYPE,
        TRANSMITTER_SIZE,
        sink,
    );
    sink.u8(transmitter.entity_kind)
        .u8(transmitter.domain)
        .u16(transmitter.country)
        .u8(LINK_16.category)
        .u8(transmitter.nomenclature_version)
        .u16(transmitter.nomenclature)
        .u8(transmitter.transmit_state)
        .u8(LINK_16.input_source)
        .u16(LINK_16.parameter_records);
    for coordinate in transmitter.antenna_location {
        sink.u64(coordinate);
    }
    for coordinate in transmitter.relative_location {
        sink.u32(coordinate);
    }
    sink.u16(transmitter.pattern_type)
        .u16(LINK_16.pattern_length)
        .u64(transmitter.frequency)
        .u32(transmitter.bandwidth)
        .u32(transmitter.power)
        .u16(transmitter.spread_spectrum)
        .u16(LINK_16.major)
        .u16(LINK_16.detail)
        .u16(LINK_16.system)
        .u16(transmitter.crypto_system)
        .u16(transmitter.key_id)
        .u8(LINK_16.modulation_length)
        .zeros(MODULATION_PADDING);
    write_modulation(&transmitter.modulation, sink);
}

fn write_modulation(modulation: &Modulation, sink: &mut Sink) {
    sink.u8(modulation.tsa_level)
        .u8(modulation.primary_mode)
        .u8(modulation.secondary_mode)
        .u8(modulation.sync_state)
        .u32(modulation.sync_id);
}

fn write_signal(signal: &Signal, body: &[u8], size: usize, sink: &mut Sink) {
    let data_bytes = NETWORK_HEADER_SIZE + body.len();
    write_header(&signal.header, SIGNAL_TYPE, size, sink);
    sink.u16(encoding(signal.encoding))
        .u16(TDL_TYPE)
        .u32(signal.sample_rate)
        .u16(8 * data_bytes as u16)
        .u16(signal.samples);
    write_network_header(&signal.network, sink);
    match signal.network.message_type {
        RTT | RTT_REPLY => write_timing(timing(body), sink),
        _ => {
            sink.bytes(body);
        }
    }
    sink.zeros(size - SIGNAL_FIXED_SIZE - data_bytes);
}

/// A body of round-trip timing: its padding, then the field's 35 bits.
fn write_timing(field: u64, sink: &mut Sink) {
    sink.u16((field >> 32) as u16).u32(field as u32);
}

fn write_network_header(network: &NetworkHeader, sink: &mut Sink) {
    sink.u16(network.npg)
        .u8(network.net)
        .u8(network.tsec)
        .u8(network.msec)
        .u8(network.message_type)
        .zeros(MESSAGE_TYPE_PADDING)
        .u32(slot_id(network.epoch, network.slot))
        .u64(network.transmit_time);
}
