//! Recorded drawings. Dew compares them by pointer alone, so the content number
//! lives in the table that hands out the pointers and not in the recording.

pub mod draw {
    /// A recording without commands.
    #[derive(Debug)]
    pub struct Content;
}
