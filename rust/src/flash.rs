//! Where everything lies on flash, and the store.

use crate::{ffi, option_at, reply, row, u32_at, Refused};

/// A flash image with one fault byte for each 256 bytes, 0 where they read well. A call refuses 5 for the capacity, then 17 where the image
/// or the fault bytes have another length.
#[derive(Clone, Copy, Debug)]
pub struct Flash<'a> {
    pub capacity_bytes: u32,
    pub image: &'a [u8],
    pub faults: &'a [u8],
}

/// Where everything lies on a flash of a capacity.
#[derive(Clone, Copy, Debug, Eq, PartialEq)]
pub struct StorageLayout {
    pub capacity_bytes: u32,
    pub config_slot_addresses: [u32; 2],
    pub log_start_address: u32,
    pub log_page_count: u32,
}

impl StorageLayout {
    /// The layout of a capacity above 16,384, at most 16,777,216 and a multiple of 4,096; any other is refused 5.
    pub fn new(capacity_bytes: u32) -> Result<Self, Refused> {
        let answer: [u8; 20] = row(|answer, len| unsafe { ffi::stipeflute_storage_layout(capacity_bytes, answer, len) })?;
        Ok(Self {
            capacity_bytes: u32_at(&answer, 0),
            config_slot_addresses: [u32_at(&answer, 4), u32_at(&answer, 8)],
            log_start_address: u32_at(&answer, 12),
            log_page_count: u32_at(&answer, 16),
        })
    }

    /// Where a page of the log begins; none from the page count on.
    pub fn log_page_address(self, page_index: u32) -> Result<Option<u32>, Refused> {
        row(|answer, len| unsafe { ffi::stipeflute_log_page_address(self.capacity_bytes, page_index, answer, len) })
            .map(|answer| option_at(&answer))
    }

    /// The sectors that a log erase clears: every log sector and the ledger.
    pub fn log_sector_count(self) -> Result<u32, Refused> {
        row(|answer, len| unsafe { ffi::stipeflute_log_sector_count(self.capacity_bytes, answer, len) }).map(u32::from_le_bytes)
    }

    /// The last sector, which holds the ledger.
    pub fn sync_ledger_address(self) -> Result<u32, Refused> {
        row(|answer, len| unsafe { ffi::stipeflute_sync_ledger_address(self.capacity_bytes, answer, len) }).map(u32::from_le_bytes)
    }

    /// The sector that a log erase clears at a step, from the end of the flash down, the ledger first; none past the last.
    pub fn log_erase_sector_address(self, step: u32) -> Result<Option<u32>, Refused> {
        row(|answer, len| unsafe { ffi::stipeflute_log_erase_sector_address(self.capacity_bytes, step, answer, len) })
            .map(|answer| option_at(&answer))
    }
}

/// Bytes of one page, from an address on, as many as `output` is long; a fault byte for them is refused 6.
pub fn read(flash: Flash, address: u32, output: &mut [u8]) -> Result<(), Refused> {
    let (image, faults) = (flash.image, flash.faults);
    reply(unsafe {
        ffi::stipeflute_read(
            flash.capacity_bytes,
            image.as_ptr(),
            image.len(),
            faults.as_ptr(),
            faults.len(),
            address,
            output.as_mut_ptr(),
            output.len(),
        )
    })
}

/// A program of bytes inside one page: each becomes old AND (target OR keep). A `device` reply of 0 succeeds and keeps nothing; another is
/// its fault, refused 6 after the bits of the 256-byte mask `keep` were kept.
pub fn page_program(
    capacity_bytes: u32,
    image: &mut [u8],
    address: u32,
    target: &[u8],
    keep: &[u8],
    device: u8,
) -> Result<(), Refused> {
    reply(unsafe {
        ffi::stipeflute_page_program(
            capacity_bytes,
            image.as_mut_ptr(),
            image.len(),
            address,
            target.as_ptr(),
            target.len(),
            keep.as_ptr(),
            keep.len(),
            device,
        )
    })
}

/// A sector erased to 0xff. A `device` reply of 0 succeeds; another is its fault, refused 6, and nothing is altered.
pub fn erase_sector_4k(capacity_bytes: u32, image: &mut [u8], address: u32, device: u8) -> Result<(), Refused> {
    reply(unsafe { ffi::stipeflute_erase_sector_4k(capacity_bytes, image.as_mut_ptr(), image.len(), address, device) })
}
