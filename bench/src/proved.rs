//! The proved server, through the C header; and, with the feature `before`, an earlier build of it, to see what a change costs.

use crate::service::{Service, Told};
use reference::call::Call;

/// `struct weavemitten_server`; its size is compared with C's at start.
#[repr(C)]
struct Memory {
    numbers: [u64; 28],
    zone: [u8; 255],
    areas: [[u8; 15_720]; 2],
    subscriptions: [[u8; 4_192]; 4],
}

/// A server of one build of the library, whose linked names begin with the prefix. An earlier build may need less memory: what it
/// needs counts as at least so many bytes.
macro_rules! library {
    ($server:ident, $linked:ident, $name:literal, $prefix:literal, $least:expr) => {
        mod $linked {
            use super::Memory;

            extern "C" {
                #[link_name = concat!($prefix, "bench_server_size")]
                pub fn bench_server_size() -> usize;
                #[link_name = concat!($prefix, "bench_start")]
                pub fn bench_start(server: *mut Memory, zone: *const u8, zone_length: usize) -> u32;
                #[link_name = concat!($prefix, "bench_open")]
                pub fn bench_open(server: *mut Memory, time: u64, values: *mut [u64; 8]) -> u32;
                #[link_name = concat!($prefix, "bench_close")]
                pub fn bench_close(server: *mut Memory, time: u64, session: u64) -> u32;
                #[link_name = concat!($prefix, "bench_message")]
                pub fn bench_message(
                    server: *mut Memory,
                    time: u64,
                    session: u64,
                    message: *const u8,
                    message_length: usize,
                    output: *mut u8,
                    output_length: usize,
                    values: *mut [u64; 8],
                ) -> u32;
                #[link_name = concat!($prefix, "bench_batch")]
                pub fn bench_batch(
                    server: *mut Memory,
                    time: u64,
                    batch: *const u8,
                    batch_length: usize,
                    output: *mut u8,
                    output_length: usize,
                    values: *mut [u64; 8],
                ) -> u32;
                #[link_name = concat!($prefix, "bench_tick")]
                pub fn bench_tick(server: *mut Memory, time: u64, values: *mut [u64; 8]) -> u32;
                #[link_name = concat!($prefix, "weavemitten_message_kind")]
                pub fn weavemitten_message_kind(message: *const u8, message_length: usize) -> u32;
            }
        }

        pub struct $server {
            memory: Box<Memory>,
        }

        impl Service for $server {
            const NAME: &'static str = $name;
            type Answer = Told;

            fn start(zone: &[u8]) -> Result<$server, u32> {
                // The lent memory may hold anything before.
                let mut memory = Box::new(Memory {
                    numbers: [0x5a5a_5a5a_5a5a_5a5a; 28],
                    zone: [0x5a; 255],
                    areas: [[0x5a; 15_720]; 2],
                    subscriptions: [[0x5a; 4_192]; 4],
                });
                // SAFETY: the header asks for a server's memory and a slice; both are lent for the call.
                let number = unsafe {
                    let size = $linked::bench_server_size().max($least);
                    assert_eq!(size, size_of::<Memory>(), "the server's memory is as the header has it");
                    $linked::bench_start(&mut *memory, zone.as_ptr(), zone.len())
                };
                if number == 1 {
                    Ok($server { memory })
                } else {
                    Err(number)
                }
            }

            #[inline(never)]
            fn call(&mut self, call: &Call, out: &mut [u8]) -> Told {
                use $linked::{bench_batch, bench_close, bench_message, bench_open, bench_tick};
                let mut values = [0; 8];
                let server: *mut Memory = &mut *self.memory;
                let (output, length) = (out.as_mut_ptr(), out.len());
                // SAFETY: all that is lent lives as long as the call and does not overlap.
                let number = unsafe {
                    match call {
                        Call::Open { time } => bench_open(server, *time, &mut values),
                        Call::Close { time, session } => bench_close(server, *time, *session),
                        Call::Message { time, session, bytes } => bench_message(
                            server,
                            *time,
                            *session,
                            bytes.as_ptr(),
                            bytes.len(),
                            output,
                            length,
                            &mut values,
                        ),
                        Call::Batch { time, edits } => {
                            bench_batch(server, *time, edits.as_ptr(), edits.len(), output, length, &mut values)
                        }
                        Call::Tick { time } => bench_tick(server, *time, &mut values),
                    }
                };
                Told { number, values }
            }

            fn told(answer: &Told) -> Told {
                *answer
            }

            #[inline(never)]
            fn kind(message: &[u8]) -> u32 {
                // SAFETY: a slice that is lent for the call.
                unsafe { $linked::weavemitten_message_kind(message.as_ptr(), message.len()) }
            }
        }
    };
}

library!(Proved, linked, "proved", "", 0);
#[cfg(feature = "before")]
library!(Before, linked_before, "before", "before_", size_of::<Memory>());
