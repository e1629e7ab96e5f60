// Stand-in: control packets, which no compared path reads. The channel map, private in rubble, is handed out here.
use crate::bytes::{ByteReader, FromBytes};
pub use crate::link::channel_map::ChannelMap;
use crate::link::{CompanyId, FeatureSet};
use crate::time::Duration;
use crate::utils::Hex;
use crate::Error;

#[derive(Debug, Copy, Clone)]
pub struct ConnectionUpdateData;

impl ConnectionUpdateData {
    pub fn interval(&self) -> Duration {
        unimplemented!("not on a compared path")
    }
    pub fn win_offset(&self) -> Duration {
        unimplemented!("not on a compared path")
    }
    pub fn win_size(&self) -> Duration {
        unimplemented!("not on a compared path")
    }
    pub fn instant(&self) -> u16 {
        unimplemented!("not on a compared path")
    }
}

#[derive(Debug, Copy, Clone)]
pub enum ControlPdu<'a> {
    ConnectionUpdateReq(ConnectionUpdateData),
    ChannelMapReq { map: ChannelMap, instant: u16 },
    TerminateInd { error_code: u8 },
    FeatureReq { features_master: FeatureSet },
    FeatureRsp { features_used: FeatureSet },
    VersionInd { vers_nr: u8, comp_id: CompanyId, sub_vers_nr: Hex<u16> },
    UnknownRsp { unknown_type: u8 },
    Other(&'a [u8]),
}

impl<'a> ControlPdu<'a> {
    pub fn opcode(&self) -> u8 {
        unimplemented!("not on a compared path")
    }
}

impl<'a> FromBytes<'a> for ControlPdu<'a> {
    fn from_bytes(_bytes: &mut ByteReader<'a>) -> Result<Self, Error> {
        unimplemented!("not on a compared path")
    }
}
