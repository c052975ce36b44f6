//! What a newer prost derives, and Debian's does not.
use crate::pb;

macro_rules! from_number {
    ($($name:ident)*) => {
        $(impl TryFrom<i32> for pb::$name {
            type Error = ();
            fn try_from(value: i32) -> Result<Self, ()> {
                Self::from_i32(value).ok_or(())
            }
        })*
    };
}

from_number!(SegmentState CompressionType ScalableConsumerType);
