// Stand-in: data channel packets. A packet with a bad CRC meets `Header` and `Pdu::empty`, which write no octet.
use crate::bytes::{ByteWriter, ToBytes};
use crate::link::llcp::ControlPdu;
use crate::link::seq_num::SeqNum;
use crate::Error;

#[derive(Debug, Copy, Clone, PartialEq, Eq)]
pub enum Llid {
    Reserved,
    DataCont,
    DataStart,
    Control,
}

#[derive(Debug, Copy, Clone)]
pub struct Header {
    llid: Llid,
    nesn: SeqNum,
    sn: SeqNum,
    length: u8,
}

impl Header {
    pub fn new(llid: Llid) -> Self {
        Header { llid, nesn: SeqNum::ZERO, sn: SeqNum::ZERO, length: 0 }
    }
    pub fn llid(&self) -> Llid {
        self.llid
    }
    pub fn nesn(&self) -> SeqNum {
        self.nesn
    }
    pub fn set_nesn(&mut self, value: SeqNum) {
        self.nesn = value;
    }
    pub fn sn(&self) -> SeqNum {
        self.sn
    }
    pub fn set_sn(&mut self, value: SeqNum) {
        self.sn = value;
    }
    pub fn set_md(&mut self, _value: bool) {}
    pub fn payload_length(&self) -> u8 {
        self.length
    }
    pub fn set_payload_length(&mut self, length: u8) {
        self.length = length;
    }
}

pub struct Pdu(Llid);

impl Pdu {
    pub fn empty() -> Self {
        Pdu(Llid::DataCont)
    }
    pub fn llid(&self) -> Llid {
        self.0
    }
}

impl<'a> From<&'a ControlPdu<'a>> for Pdu {
    fn from(_pdu: &'a ControlPdu<'a>) -> Self {
        unimplemented!("not on a compared path")
    }
}

impl ToBytes for Pdu {
    fn to_bytes(&self, _writer: &mut ByteWriter<'_>) -> Result<(), Error> {
        Ok(())
    }
}
