//! The library for C: its functions, and what it lays out.

use core::ffi::{c_char, c_int, c_uint, c_void};
use core::mem::offset_of;

use crate::opening::Ticked;
use crate::{Cut, Event, Record, Sent, TransferHead, Unsettled};

#[repr(C)]
pub(crate) struct Place {
    pub(crate) full: u32,
    pub(crate) at: *mut c_void,
}

#[repr(C)]
pub(crate) struct How {
    pub(crate) key: [u8; 16],
    pub(crate) time: u64,
    pub(crate) limit: u32,
    pub(crate) side: u32,
    pub(crate) host: u32,
    pub(crate) reserved: u32,
}

#[repr(C)]
pub(crate) struct LoginHead {
    pub(crate) mechanism: u32,
    pub(crate) response: u32,
}

#[repr(C)]
#[derive(Default)]
pub(crate) struct Took {
    pub(crate) taken: usize,
    pub(crate) written: usize,
    pub(crate) wanted: usize,
}

#[repr(C)]
#[derive(Default)]
pub(crate) struct Went {
    pub(crate) taken: usize,
    pub(crate) used: usize,
}

#[repr(C)]
#[derive(Default)]
pub(crate) struct Told {
    pub(crate) given: u64,
    pub(crate) number: u32,
    pub(crate) refusal: u32,
    pub(crate) has_given: u32,
    pub(crate) reserved: u32,
}

/// A source or a target.
#[repr(C)]
pub(crate) struct Ends {
    pub(crate) address: *const c_char,
    pub(crate) durable: u32,
    pub(crate) timeout: u32,
    pub(crate) expiry_policy: *const c_char,
    pub(crate) distribution_mode: *const c_char,
    pub(crate) capability: *const c_char,
    pub(crate) is_dynamic: c_int,
}

/// Some bytes, as the readers of the library have them.
#[repr(C)]
#[derive(Clone, Copy)]
pub(crate) struct Bytes {
    pub(crate) at: *const u8,
    pub(crate) length: usize,
}

/// Bytes that are being written.
#[repr(C)]
pub(crate) struct Text {
    pub(crate) at: *mut u8,
    pub(crate) room: usize,
    pub(crate) length: usize,
    pub(crate) is_bad: c_int,
}

// The layouts that the library has, of all that goes to it or comes from it.
const _: () = {
    assert!(size_of::<Place>() == 16 && size_of::<How>() == 40 && size_of::<LoginHead>() == 8);
    assert!(size_of::<Took>() == 24 && size_of::<Ticked>() == 16 && size_of::<Went>() == 16);
    assert!(size_of::<Record>() == 96 && size_of::<TransferHead>() == 20 && size_of::<Sent>() == 8);
    assert!(size_of::<Cut>() == 48 && size_of::<Told>() == 24 && size_of::<Unsettled>() == 16);
    assert!(size_of::<Ends>() == 48 && offset_of!(Ends, expiry_policy) == 16 && offset_of!(Ends, is_dynamic) == 40);
    assert!(size_of::<Event>() == 48 && offset_of!(Event, kind) == 20 && offset_of!(Event, flags) == 44);
};

/// The one of these that has this number, from the first one's on.
pub(crate) fn one<T: Copy>(of: &[T], first: u32, number: u32) -> Option<T> {
    of.get(number.checked_sub(first)? as usize).copied()
}

unsafe extern "C" {
    pub(crate) fn amqp1_new(
        place: *mut Place,
        how: *const How,
        open: *const u8,
        open_length: usize,
        logins: *const LoginHead,
        logins_length: usize,
        bytes: *const u8,
        bytes_length: usize,
    ) -> i32;
    pub(crate) fn amqp1_call(
        place: *mut Place,
        operation: u32,
        input: *const u8,
        input_length: usize,
        output: *mut u8,
        output_length: usize,
        written: *mut usize,
    ) -> i32;
    pub(crate) fn amqp1_take(
        place: *mut Place,
        now: u64,
        input: *const u8,
        input_length: usize,
        records: *mut Record,
        records_length: usize,
        answer: *mut Took,
    ) -> i32;
    pub(crate) fn amqp1_answer(
        place: *mut Place,
        record: *const Record,
        input: *const u8,
        input_length: usize,
        flags: u16,
        number: u32,
    ) -> i32;
    pub(crate) fn amqp1_heard(place: *mut Place, now: u64) -> i32;
    pub(crate) fn amqp1_tick(place: *mut Place, now: u64, answer: *mut Ticked) -> i32;
    pub(crate) fn amqp1_send(
        place: *mut Place,
        heads: *const TransferHead,
        heads_length: usize,
        bytes: *const u8,
        bytes_length: usize,
        sent: *mut Sent,
        sent_length: usize,
        answer: *mut Went,
    ) -> i32;
    pub(crate) fn amqp1_cut(
        place: *mut Place,
        head: *const TransferHead,
        bytes: *const u8,
        bytes_length: usize,
        answer: *mut Cut,
    ) -> i32;
    pub(crate) fn amqp1_free(place: *mut Place);
    pub(crate) fn amqp1_version() -> u32;

    pub(crate) fn amqp1_link_attach(
        place: *mut Place,
        session: u32,
        attach: *const u8,
        length: usize,
        name: *const u8,
        name_length: usize,
        low: u32,
        high: u32,
        link: *mut u32,
    ) -> i32;
    pub(crate) fn amqp1_link_wanted(place: *mut Place, record: *const Record, link: u32, event: *mut Event) -> i32;
    pub(crate) fn amqp1_link_event(place: *mut Place, record: *const Record, given: u64, event: *mut Event) -> i32;
    pub(crate) fn amqp1_link_due(place: *mut Place, session: u32, event: *mut Event) -> i32;
    pub(crate) fn amqp1_link_respond(place: *mut Place, event: *const Event, available: u32) -> i32;
    pub(crate) fn amqp1_link_flow(place: *mut Place, session: u32, link: u32, wish: u32, number: u32) -> i32;
    pub(crate) fn amqp1_link_detach(
        place: *mut Place,
        session: u32,
        link: u32,
        closed: u32,
        error: *const u8,
        length: usize,
    ) -> i32;
    pub(crate) fn amqp1_link_send(
        place: *mut Place,
        head: *const TransferHead,
        bytes: *const u8,
        length: usize,
        given: u64,
        told: *mut Told,
    ) -> i32;
    pub(crate) fn amqp1_link_settle(
        place: *mut Place,
        session: u32,
        role: u32,
        first: u32,
        last: u32,
        settled: u32,
        outcome: u8,
    ) -> i32;
    pub(crate) fn amqp1_link_dispose(place: *mut Place, session: u32, disposition: *const u8, length: usize) -> i32;
    pub(crate) fn amqp1_link_settled(
        place: *mut Place,
        session: u32,
        role: u32,
        first: u32,
        last: u32,
        delivery: *mut Unsettled,
    ) -> i32;
    pub(crate) fn amqp1_link_left(place: *mut Place, session: u32, link: u32, delivery: *mut Unsettled) -> i32;
    pub(crate) fn amqp1_link_left_of(place: *mut Place, session: u32, role: u32, delivery: *mut Unsettled) -> i32;
    pub(crate) fn amqp1_link_remove(place: *mut Place, session: u32, link: u32) -> i32;
    pub(crate) fn amqp1_link_forget(place: *mut Place, session: u32) -> i32;
    pub(crate) fn amqp1_link_credit(place: *mut Place, session: u32, link: u32, credit: *mut u32) -> i32;

    pub(crate) fn amqp1_write_open(
        out: *mut u8,
        room: usize,
        written: *mut usize,
        container_id: *const c_char,
        hostname: *const c_char,
        max_frame_size: u32,
        channel_max: u16,
        idle_time_out: u32,
    ) -> i32;
    pub(crate) fn amqp1_write_begin(
        out: *mut u8,
        room: usize,
        written: *mut usize,
        next_outgoing_id: u32,
        incoming_window: u32,
        outgoing_window: u32,
        handle_max: u32,
    ) -> i32;
    pub(crate) fn amqp1_write_attach_of(
        out: *mut u8,
        room: usize,
        written: *mut usize,
        name: *const c_char,
        handle: u32,
        role: c_uint,
        snd_settle_mode: c_uint,
        rcv_settle_mode: c_uint,
        source: *const Ends,
        target: *const Ends,
        initial_delivery_count: u32,
    ) -> i32;
    pub(crate) fn amqp1_write_flow(
        out: *mut u8,
        room: usize,
        written: *mut usize,
        handle: u32,
        delivery_count: *const u32,
        link_credit: u32,
        drain: c_int,
        echo: c_int,
    ) -> i32;
    pub(crate) fn amqp1_write_transfer(
        out: *mut u8,
        room: usize,
        written: *mut usize,
        handle: u32,
        tag: *const c_void,
        tag_length: usize,
        message_format: u32,
        settled: c_int,
        more: c_int,
    ) -> i32;
    pub(crate) fn amqp1_write_disposition(
        out: *mut u8,
        room: usize,
        written: *mut usize,
        role: c_uint,
        first: u32,
        last: u32,
        settled: c_int,
        outcome: c_uint,
    ) -> i32;
    pub(crate) fn amqp1_write_detach(
        out: *mut u8,
        room: usize,
        written: *mut usize,
        handle: u32,
        closed: c_int,
        condition: *const c_char,
        description: *const c_char,
    ) -> i32;
    pub(crate) fn amqp1_write_error(
        out: *mut u8,
        room: usize,
        written: *mut usize,
        condition: *const c_char,
        description: *const c_char,
    ) -> i32;

    pub(crate) fn amqp1_value_length(from: Bytes) -> usize;
    pub(crate) fn amqp1_read_described(from: Bytes, descriptor: *mut u64, value: *mut Bytes) -> c_int;
    pub(crate) fn amqp1_read_number(value: Bytes, number: *mut u64) -> c_int;
    pub(crate) fn amqp1_read_boolean(value: Bytes, is_true: *mut c_int) -> c_int;
    pub(crate) fn amqp1_read_bytes(value: Bytes, inside: *mut Bytes) -> c_int;
    pub(crate) fn amqp1_field(described: Bytes, place: u32, field: *mut Bytes) -> c_int;
    pub(crate) fn amqp1_read_data(message: Bytes, data: *mut Bytes) -> c_int;

    pub(crate) fn amqp1_begin_list(text: *mut Text, descriptor: c_uint, fields: u32) -> usize;
    pub(crate) fn amqp1_end_list(text: *mut Text, at: usize);
    pub(crate) fn amqp1_put(text: *mut Text, bytes: *const c_void, length: usize);
    pub(crate) fn amqp1_put_null(text: *mut Text);
    pub(crate) fn amqp1_put_bytes(text: *mut Text, code: c_uint, bytes: *const c_void, length: usize);
    pub(crate) fn amqp1_written(text: *const Text, written: *mut usize) -> i32;
}
