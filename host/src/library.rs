//! The library: the functions of the archive, and thin wrappers that lend them slices.

use crate::boundary::Calls;

/// The proved library behind the boundary.
pub struct Library;

/// As in `include/cuongphemi.h`: a slice is a pointer and a count.
#[rustfmt::skip]
mod c {
    extern "C" {
        pub fn cuongphemi_start(
            state: *mut u32, _: usize, status: *mut u32, _: usize, memory: *const u32, _: usize,
            registers: *const u32, _: usize, answer: *mut u32, _: usize,
        ) -> u32;
        pub fn cuongphemi_receive(
            state: *mut u32, _: usize, status: *mut u32, _: usize, memory: *mut u32, _: usize,
            frame: *const u32, _: usize, data: *const u8, _: usize, time: u16, answer: *mut u32, _: usize,
        ) -> u32;
        pub fn cuongphemi_read_fifo(
            state: *const u32, _: usize, status: *const u32, _: usize, memory: *const u32, _: usize,
            fifo: u32, place: u32, output: *mut u8, _: usize, answer: *mut u32, _: usize,
        ) -> u32;
        pub fn cuongphemi_acknowledge_fifo(
            state: *mut u32, _: usize, status: *const u32, _: usize, memory: *const u32, _: usize,
            fifo: u32, place: u32,
        ) -> u32;
        pub fn cuongphemi_read_buffer(
            state: *const u32, _: usize, status: *const u32, _: usize, memory: *const u32, _: usize,
            buffer: u32, output: *mut u8, _: usize, answer: *mut u32, _: usize,
        ) -> u32;
        pub fn cuongphemi_release_buffer(
            state: *mut u32, _: usize, status: *const u32, _: usize, memory: *const u32, _: usize,
            buffer: u32,
        ) -> u32;
        pub fn cuongphemi_request_dedicated(
            state: *mut u32, _: usize, status: *const u32, _: usize, memory: *mut u32, _: usize,
            buffer: u32, frame: *const u32, _: usize, data: *const u8, _: usize, marker: u8, wish: u32,
            answer: *mut u32, _: usize,
        ) -> u32;
        pub fn cuongphemi_request_shared(
            state: *mut u32, _: usize, status: *const u32, _: usize, memory: *mut u32, _: usize,
            frame: *const u32, _: usize, data: *const u8, _: usize, marker: u8, wish: u32,
            answer: *mut u32, _: usize,
        ) -> u32;
        pub fn cuongphemi_cancel(
            state: *mut u32, _: usize, status: *mut u32, _: usize, memory: *const u32, _: usize,
            buffer: u32,
        ) -> u32;
        pub fn cuongphemi_ask_choice(
            state: *const u32, _: usize, status: *const u32, _: usize, memory: *const u32, _: usize,
            passive: u32, output: *mut u8, _: usize, answer: *mut u32, _: usize,
        ) -> u32;
        pub fn cuongphemi_report_sent(
            state: *mut u32, _: usize, status: *mut u32, _: usize, memory: *mut u32, _: usize,
            buffer: u32, passive: u32, time: u16,
        ) -> u32;
        pub fn cuongphemi_read_event(
            state: *const u32, _: usize, status: *const u32, _: usize, memory: *const u32, _: usize,
            place: u32, answer: *mut u32, _: usize,
        ) -> u32;
        pub fn cuongphemi_acknowledge_event(
            state: *mut u32, _: usize, status: *const u32, _: usize, memory: *const u32, _: usize,
            place: u32,
        ) -> u32;
        pub fn cuongphemi_clear_flags(
            state: *const u32, _: usize, status: *mut u32, _: usize, memory: *const u32, _: usize,
            mask: u32,
        ) -> u32;
        pub fn cuongphemi_status(
            state: *const u32, _: usize, status: *const u32, _: usize, memory: *const u32, _: usize,
            answer: *mut u32, _: usize,
        ) -> u32;
        pub fn cuongphemi_never_started(state: *mut u32, _: usize) -> u32;

        // A record is two words, flags and priority.
        pub fn cuongphemi_flags_raise(status: *mut [u32; 2], mask: u32);
        pub fn cuongphemi_flags_clear(status: *mut [u32; 2], mask: u32);
        pub fn cuongphemi_flags_take(status: *mut [u32; 2]) -> u32;
        pub fn cuongphemi_priority_put(status: *mut [u32; 2], word: u32);
    }
}

/// Calls a function with its slices as pointer and count and its numbers as they are.
macro_rules! lend {
    ($function:ident; $($argument:tt)*) => {
        lend!(@ $function [] $($argument)*)
    };
    (@ $function:ident [$($given:expr,)*]) => {
        // SAFETY: every pointer and count comes from one slice that is borrowed for the call, a mutable one mutably.
        unsafe { c::$function($($given,)*) }
    };
    (@ $function:ident [$($given:expr,)*] mut $slice:ident $(, $($rest:tt)*)?) => {
        lend!(@ $function [$($given,)* $slice.as_mut_ptr(), $slice.len(),] $($($rest)*)?)
    };
    (@ $function:ident [$($given:expr,)*] ref $slice:ident $(, $($rest:tt)*)?) => {
        lend!(@ $function [$($given,)* $slice.as_ptr(), $slice.len(),] $($($rest)*)?)
    };
    (@ $function:ident [$($given:expr,)*] $number:ident $(, $($rest:tt)*)?) => {
        lend!(@ $function [$($given,)* $number,] $($($rest)*)?)
    };
}

/// The steps for interrupt code, on a record in place.
impl Library {
    pub fn flags_raise(&self, status: &mut [u32; 2], mask: u32) {
        // SAFETY: the record is borrowed mutably for the call.
        unsafe { c::cuongphemi_flags_raise(status, mask) }
    }

    pub fn flags_clear(&self, status: &mut [u32; 2], mask: u32) {
        // SAFETY: as above.
        unsafe { c::cuongphemi_flags_clear(status, mask) }
    }

    /// The flags that were up; they are clear then.
    pub fn flags_take(&self, status: &mut [u32; 2]) -> u32 {
        // SAFETY: as above.
        unsafe { c::cuongphemi_flags_take(status) }
    }

    pub fn priority_put(&self, status: &mut [u32; 2], word: u32) {
        // SAFETY: as above.
        unsafe { c::cuongphemi_priority_put(status, word) }
    }
}

impl Calls for Library {
    fn start(
        &self,
        state: &mut [u32],
        status: &mut [u32],
        memory: &[u32],
        registers: &[u32],
        answer: &mut [u32],
    ) -> u32 {
        lend!(cuongphemi_start; mut state, mut status, ref memory, ref registers, mut answer)
    }

    fn receive(
        &self,
        state: &mut [u32],
        status: &mut [u32],
        memory: &mut [u32],
        frame: &[u32],
        data: &[u8],
        time: u16,
        answer: &mut [u32],
    ) -> u32 {
        lend!(cuongphemi_receive; mut state, mut status, mut memory, ref frame, ref data, time, mut answer)
    }

    fn read_fifo(
        &self,
        state: &[u32],
        status: &[u32],
        memory: &[u32],
        fifo: u32,
        place: u32,
        output: &mut [u8],
        answer: &mut [u32],
    ) -> u32 {
        lend!(cuongphemi_read_fifo; ref state, ref status, ref memory, fifo, place, mut output, mut answer)
    }

    fn acknowledge_fifo(&self, state: &mut [u32], status: &[u32], memory: &[u32], fifo: u32, place: u32) -> u32 {
        lend!(cuongphemi_acknowledge_fifo; mut state, ref status, ref memory, fifo, place)
    }

    fn read_buffer(
        &self,
        state: &[u32],
        status: &[u32],
        memory: &[u32],
        buffer: u32,
        output: &mut [u8],
        answer: &mut [u32],
    ) -> u32 {
        lend!(cuongphemi_read_buffer; ref state, ref status, ref memory, buffer, mut output, mut answer)
    }

    fn release_buffer(&self, state: &mut [u32], status: &[u32], memory: &[u32], buffer: u32) -> u32 {
        lend!(cuongphemi_release_buffer; mut state, ref status, ref memory, buffer)
    }

    fn request_dedicated(
        &self,
        state: &mut [u32],
        status: &[u32],
        memory: &mut [u32],
        buffer: u32,
        frame: &[u32],
        data: &[u8],
        marker: u8,
        wish: u32,
        answer: &mut [u32],
    ) -> u32 {
        lend!(
            cuongphemi_request_dedicated;
            mut state, ref status, mut memory, buffer, ref frame, ref data, marker, wish, mut answer
        )
    }

    fn request_shared(
        &self,
        state: &mut [u32],
        status: &[u32],
        memory: &mut [u32],
        frame: &[u32],
        data: &[u8],
        marker: u8,
        wish: u32,
        answer: &mut [u32],
    ) -> u32 {
        lend!(
            cuongphemi_request_shared;
            mut state, ref status, mut memory, ref frame, ref data, marker, wish, mut answer
        )
    }

    fn cancel(&self, state: &mut [u32], status: &mut [u32], memory: &[u32], buffer: u32) -> u32 {
        lend!(cuongphemi_cancel; mut state, mut status, ref memory, buffer)
    }

    fn ask_choice(
        &self,
        state: &[u32],
        status: &[u32],
        memory: &[u32],
        passive: u32,
        output: &mut [u8],
        answer: &mut [u32],
    ) -> u32 {
        lend!(cuongphemi_ask_choice; ref state, ref status, ref memory, passive, mut output, mut answer)
    }

    fn report_sent(
        &self,
        state: &mut [u32],
        status: &mut [u32],
        memory: &mut [u32],
        buffer: u32,
        passive: u32,
        time: u16,
    ) -> u32 {
        lend!(cuongphemi_report_sent; mut state, mut status, mut memory, buffer, passive, time)
    }

    fn read_event(&self, state: &[u32], status: &[u32], memory: &[u32], place: u32, answer: &mut [u32]) -> u32 {
        lend!(cuongphemi_read_event; ref state, ref status, ref memory, place, mut answer)
    }

    fn acknowledge_event(&self, state: &mut [u32], status: &[u32], memory: &[u32], place: u32) -> u32 {
        lend!(cuongphemi_acknowledge_event; mut state, ref status, ref memory, place)
    }

    fn clear_flags(&self, state: &[u32], status: &mut [u32], memory: &[u32], mask: u32) -> u32 {
        lend!(cuongphemi_clear_flags; ref state, mut status, ref memory, mask)
    }

    fn status(&self, state: &[u32], status: &[u32], memory: &[u32], answer: &mut [u32]) -> u32 {
        lend!(cuongphemi_status; ref state, ref status, ref memory, mut answer)
    }

    fn never_started(&self, state: &mut [u32]) -> u32 {
        lend!(cuongphemi_never_started; mut state)
    }
}
