//! What the nine files lean on and what is not among them. docs/DIFFERENCES.md lists each.

pub mod heapless;

/// ferrowasp_config::stored: configuration stays in Rust, and no configuration is loaded here.
pub mod stored {
    #[derive(Clone, Copy, Debug, Eq, PartialEq)]
    pub struct StoredConfig;

    impl StoredConfig {
        pub fn decode(_payload: &[u8]) -> Option<Self> {
            None
        }
    }
}

/// ferrowasp_storage::nor_storage: the methods that the files call.
pub mod nor_storage {
    pub trait NorStorage {
        type Error;

        fn read(&mut self, address: u32, output: &mut [u8]) -> Result<(), Self::Error>;

        fn page_program(&mut self, address: u32, bytes: &[u8]) -> Result<(), Self::Error>;

        fn erase_sector_4k(&mut self, address: u32) -> Result<(), Self::Error>;

        fn busy(&mut self) -> Result<bool, Self::Error>;

        fn write_back_pending(&self) -> bool;

        fn flush(&mut self) -> Result<(), Self::Error>;
    }
}

/// ferrowasp_cli::commands: document 01 takes the capacity as 56 or more.
pub mod commands {
    pub const USB_RESPONSE_CAPACITY: usize = 56;
}

/// ferrowasp_boundary_contracts::messages: record_for_tick stays in Rust and is not called here.
pub mod messages {
    pub struct ControlTick {
        pub control_seq: u32,
        pub imu_seq: u32,
        pub armed: bool,
        pub imu_fresh: bool,
        pub raw_gyro_dps: [f32; 3],
        pub filtered_gyro_dps: [f32; 3],
        pub command_dps: [f32; 3],
        pub pid: [f32; 3],
        pub throttle: f32,
        pub motors: [f32; 4],
    }
}

/// ferrowasp_io_contracts::link
pub mod link {
    pub struct Micros(pub u64);

    pub struct Stamped<T> {
        pub at: Micros,
        pub value: T,
    }
}

/// ferrowasp_flight_control::drone_toolbox
pub mod drone_toolbox {
    pub struct RateBlackboxSample {
        pub measurement: [f32; 3],
        pub setpoint: [f32; 3],
        pub pid: [f32; 3],
        pub throttle: f32,
        pub motors: [f32; 4],
    }
}
