
/// The private halving of the search.
pub mod reached {
    use super::{LogSyncError, StorageLayout};

    pub fn lower_bound<E, Read>(
        layout: StorageLayout,
        read: &mut Read,
        end: u32,
        flight_id: u32,
    ) -> Result<u32, LogSyncError<E>>
    where
        Read: FnMut(u32, &mut [u8]) -> Result<(), E>,
    {
        super::lower_bound(layout, read, end, flight_id)
    }

    pub fn flight_id_at<E, Read>(
        layout: StorageLayout,
        read: &mut Read,
        page_index: u32,
    ) -> Result<u32, LogSyncError<E>>
    where
        Read: FnMut(u32, &mut [u8]) -> Result<(), E>,
    {
        super::flight_id_at(layout, read, page_index)
    }
}
