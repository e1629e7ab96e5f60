// Stand-in: no compared path maps channels.
pub trait ChannelMapper {}
