//! The two traits of a codec, in the place of the crate that has them.

/// The module that they stand in there.
pub mod codec {
    use bytes::BytesMut;

    /// Takes items from the front of a buffer.
    pub trait Decoder {
        type Item;
        type Error;
        fn decode(&mut self, from: &mut BytesMut) -> Result<Option<Self::Item>, Self::Error>;
    }

    /// Adds an item to a buffer.
    pub trait Encoder<Item> {
        type Error;
        fn encode(&mut self, item: Item, to: &mut BytesMut) -> Result<(), Self::Error>;
    }
}
