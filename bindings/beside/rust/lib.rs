// SPDX-License-Identifier: Apache-2.0 OR MIT
//! What the programs of `lengths.h` in Rust share: buffers that are made once, and go back when they have been read.

/// How many buffers there are, and how many messages a queue may hold.
pub const BUFFERS: usize = 8;

/// Writes the message's word into its first bytes.
pub fn write(bytes: &mut [u8], word: u64) {
    bytes[..8].copy_from_slice(&word.to_ne_bytes());
}

/// Whether the message has this word.
pub fn has(bytes: &[u8], word: u64) -> bool {
    bytes[..8] == word.to_ne_bytes()
}

/// Gives a library of `lengths.h` its three functions: a world that is made of a length, and passes a message.
#[macro_export]
macro_rules! library {
    ($world:ty) => {
        thread_local! {
            static WORLD: std::cell::RefCell<Option<$world>> = const { std::cell::RefCell::new(None) };
        }

        #[no_mangle]
        pub extern "C" fn begin(len: usize) -> i32 {
            WORLD.with(|world| {
                *world.borrow_mut() = <$world>::new(len);
                world.borrow().is_some().into()
            })
        }

        #[no_mangle]
        pub extern "C" fn pass(word: u64) -> i32 {
            WORLD.with(|world| world.borrow_mut().as_mut().and_then(|world| world.pass(word)).unwrap_or(false).into())
        }

        #[no_mangle]
        pub extern "C" fn end() -> i32 {
            WORLD.with(|world| *world.borrow_mut() = None);
            1
        }
    };
}
