// Stand-in: packet queues. A packet with a bad CRC meets neither end.
use crate::bytes::ByteWriter;
use crate::link::data::{Header, Llid};
use crate::Error;

pub struct Consume<T>(core::marker::PhantomData<T>);

impl<T> Consume<T> {
    pub fn always(_result: Result<T, Error>) -> Self {
        Consume(core::marker::PhantomData)
    }
}

pub trait PacketQueue {
    type Producer: Producer;
    type Consumer: Consumer;
}

pub trait Producer {
    fn produce_with<E: From<Error>>(
        &mut self,
        payload_bytes: u8,
        f: impl FnOnce(&mut ByteWriter<'_>) -> Result<Llid, E>,
    ) -> Result<(), E>;
}

pub trait Consumer {
    fn consume_raw_with<R>(&mut self, f: impl FnOnce(Header, &[u8]) -> Consume<R>) -> Result<R, Error>;
}

pub struct NoQueue;

impl PacketQueue for NoQueue {
    type Producer = NoQueue;
    type Consumer = NoQueue;
}

impl Producer for NoQueue {
    fn produce_with<E: From<Error>>(
        &mut self,
        _payload_bytes: u8,
        _f: impl FnOnce(&mut ByteWriter<'_>) -> Result<Llid, E>,
    ) -> Result<(), E> {
        unimplemented!("not on a compared path")
    }
}

impl Consumer for NoQueue {
    fn consume_raw_with<R>(&mut self, _f: impl FnOnce(Header, &[u8]) -> Consume<R>) -> Result<R, Error> {
        unimplemented!("not on a compared path")
    }
}
