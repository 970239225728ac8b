//! The reference library's name codec, htscodecs' tok3, where it is installed. Its encoding and
//! decoding include the entropy coder, which the library here leaves to others.

#[cfg(feature = "tok3")]
pub use installed::Reference;

#[cfg(not(feature = "tok3"))]
pub use missing::Reference;

#[cfg(feature = "tok3")]
#[allow(unsafe_code)]
mod installed {
    use std::ffi::{c_char, c_int, c_void};

    #[link(name = "htscodecs")]
    extern "C" {
        fn tok3_encode_names(
            names: *mut c_char,
            length: c_int,
            level: c_int,
            use_arith: c_int,
            out_length: *mut c_int,
            last_start: *mut c_int,
        ) -> *mut u8;
        fn tok3_decode_names(input: *mut u8, length: u32, out_length: *mut u32) -> *mut u8;
        fn free(memory: *mut c_void);
    }

    /// The level that CRAM writers use with the plain (not the arithmetic) coder.
    const LEVEL: c_int = 3;

    /// Names and their encoded form.
    pub struct Reference {
        names: Vec<u8>,
        encoded: Vec<u8>,
    }

    impl Reference {
        pub fn new(input: &[u8]) -> Option<Reference> {
            let mut names = input.to_vec();
            let encoded = encoded(&mut names).copied();
            Some(Reference { names, encoded })
        }

        pub fn encode(&mut self) {
            assert_eq!(encoded(&mut self.names).length, self.encoded.len());
        }

        pub fn decode(&mut self) {
            let mut length = 0;
            let size = self.encoded.len() as u32;
            // SAFETY: the input is `size` bytes, and the number is lent.
            let start = unsafe { tok3_decode_names(self.encoded.as_mut_ptr(), size, &mut length) };
            let length = length as usize;
            assert_eq!(Answered::new(start, length).length, self.names.len());
        }
    }

    /// The encoder ends names with zero bytes where they lie; it takes those as well as byte 10.
    fn encoded(names: &mut [u8]) -> Answered {
        let (mut length, mut last) = (0, 0);
        let size = names.len() as c_int;
        let names = names.as_mut_ptr().cast();
        // SAFETY: the names are `size` bytes that may be written; both numbers are lent.
        let start = unsafe { tok3_encode_names(names, size, LEVEL, 0, &mut length, &mut last) };
        Answered::new(start, length as usize)
    }

    /// The codec allocates what it answers; it is freed here.
    struct Answered {
        start: *mut u8,
        length: usize,
    }

    impl Answered {
        fn new(start: *mut u8, length: usize) -> Answered {
            assert!(!start.is_null(), "the reference library refused the names");
            Answered { start, length }
        }

        fn copied(&self) -> Vec<u8> {
            // SAFETY: the codec answered `length` bytes, which are freed no sooner than this is dropped.
            unsafe { std::slice::from_raw_parts(self.start, self.length) }.to_vec()
        }
    }

    impl Drop for Answered {
        fn drop(&mut self) {
            // SAFETY: what the codec allocated is freed here and nowhere else.
            unsafe { free(self.start.cast()) }
        }
    }
}

#[cfg(not(feature = "tok3"))]
mod missing {
    /// Never made.
    pub enum Reference {}

    impl Reference {
        pub fn new(_: &[u8]) -> Option<Reference> {
            None
        }

        pub fn encode(&mut self) {}

        pub fn decode(&mut self) {}
    }
}
