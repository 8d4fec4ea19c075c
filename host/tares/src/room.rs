//! Buffers in which 7 cannot arise.

use pansdaoh::{BUCKET, LINE, MAX_BUCKETS, MAX_LINES};

/// Bytes of the longest list and of the longest image. Of a longer file one
/// byte more is read, which is refused as the whole would be.
pub const MAX_LIST: usize = LINE * MAX_LINES;
pub const MAX_IMAGE: usize = BUCKET * MAX_BUCKETS;

/// Room for any list.
pub fn list_room() -> Vec<u8> {
    vec![0; MAX_LIST]
}

/// Room for any image.
pub fn image_room() -> Vec<u8> {
    vec![0; MAX_IMAGE]
}
