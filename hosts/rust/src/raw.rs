//! The C interface, mirrored from `include/sealwax.h` in its order, and for each call a function
//! that takes slices. All of the crate's `unsafe` is here.
//!
//! What the header asks of a host is kept by types: a gateway is made by [`setup`] alone and nothing
//! else writes it; one that is lent for writing is lent once, and none is lent to two threads; what
//! is written overlaps no other argument, since it is borrowed mutably.

use std::cell::Cell;
use std::marker::PhantomData;
use std::mem::{size_of, MaybeUninit};

/// The length of info.
pub const INFO_LENGTH: usize = 29;
/// The length of the longest salt.
pub const LONGEST_SALT: usize = 165;
/// The length of the longest head of a request.
pub const LONGEST_HEAD: usize = 140;
/// The length of the exporter context.
pub const EXPORTER_CONTEXT_LENGTH: usize = 22;
/// The length of the longest key list that is written.
pub const LONGEST_LIST: usize = 3264;
/// The length of the longest key list that may be good: sixteen configurations that are skipped,
/// each as long as its two length bytes can say.
pub const LONGEST_LIST_READ: usize = 16 * (2 + 65_535);
/// The most keys of a gateway.
pub const MOST_KEYS: usize = 16;
/// The size of a gateway in bytes.
pub const GATEWAY_SIZE: usize = 4304;

/// The number of an accepted call.
pub const ACCEPTED: u8 = 0;
/// The problem type `ohttp-key`.
pub const OHTTP_KEY: u8 = 1;

#[repr(C)]
#[derive(Clone)]
pub struct Gateway {
    /// Bytes between the library's fields may hold anything, so nothing here is read or compared.
    opaque: [MaybeUninit<u64>; GATEWAY_SIZE / 8],
    /// Not to be shared between threads: "one gateway, one lock" holds for a report too.
    one_lock: PhantomData<Cell<()>>,
}

#[repr(C)]
#[derive(Clone, Copy, Debug, PartialEq, Eq)]
pub struct Outcome {
    pub number: u8,
    pub has_place: bool,
    pub place: usize,
    pub status: u16,
    pub problem: u8,
}

#[repr(C)]
#[derive(Clone, Copy, Debug, PartialEq, Eq)]
pub struct SetupResult {
    pub outcome: Outcome,
    pub keys: usize,
}

#[repr(C)]
#[derive(Clone, Copy, Debug, PartialEq, Eq)]
pub struct AdmitResult {
    pub outcome: Outcome,
    pub ticket: u64,
    pub enc_start: usize,
    pub enc_end: usize,
    pub ciphertext_start: usize,
    pub ciphertext_end: usize,
    pub kdf: u16,
    pub aead: u16,
    pub key_id: u8,
}

#[repr(C)]
#[derive(Clone, Copy, Debug, PartialEq, Eq)]
pub struct OpenResult {
    pub outcome: Outcome,
    pub opened: u64,
}

#[repr(C)]
#[derive(Clone, Copy, Debug, PartialEq, Eq)]
pub struct RespondResult {
    pub outcome: Outcome,
    pub length: u64,
}

#[repr(C)]
#[derive(Clone, Copy, Debug, PartialEq, Eq)]
pub struct KeyReport {
    pub id: u8,
    pub count: u32,
    /// C's `bool`, taken as a number: every byte is a value of it.
    pub retired: u8,
}

#[repr(C)]
#[derive(Clone, Copy, Debug, PartialEq, Eq)]
pub struct ReportResult {
    pub outcome: Outcome,
    pub last_ticket: u64,
    pub pending: usize,
    pub key_count: usize,
    pub keys: [KeyReport; MOST_KEYS],
}

#[repr(C)]
#[derive(Clone, Copy, Debug, PartialEq, Eq)]
pub struct CheckResult {
    pub outcome: Outcome,
    pub configurations: usize,
    pub skipped: usize,
}

#[repr(C)]
#[derive(Clone, Copy, Debug, PartialEq, Eq)]
pub struct KeyResult {
    pub outcome: Outcome,
    pub start: usize,
    pub end: usize,
}

#[repr(C)]
#[derive(Clone, Copy, Debug, PartialEq, Eq)]
pub struct WriteResult {
    pub outcome: Outcome,
    pub length: usize,
}

#[repr(C)]
#[derive(Clone, Copy, Debug, PartialEq, Eq)]
pub struct ChooseResult {
    pub outcome: Outcome,
    pub key_start: usize,
    pub key_end: usize,
    pub kem: u16,
    pub kdf: u16,
    pub aead: u16,
    pub key_id: u8,
}

#[repr(C)]
#[derive(Clone, Copy, Debug, PartialEq, Eq)]
pub struct HeadResult {
    pub outcome: Outcome,
    pub length: usize,
}

#[repr(C)]
#[derive(Clone, Copy, Debug, PartialEq, Eq)]
pub struct SplitResult {
    pub outcome: Outcome,
    pub nonce_length: usize,
    pub ciphertext_length: usize,
}

#[repr(C)]
#[derive(Clone, Copy, Debug, PartialEq, Eq)]
pub struct ExporterResult {
    pub outcome: Outcome,
    pub context_length: usize,
    pub secret_length: usize,
}

#[repr(C)]
#[derive(Clone, Copy, Debug, PartialEq, Eq)]
pub struct Span {
    pub start: usize,
    pub end: usize,
}

#[repr(C)]
#[derive(Clone, Copy, Debug, PartialEq, Eq)]
pub struct Section {
    pub span: Span,
    pub fields: usize,
}

#[repr(C)]
#[derive(Clone, Copy, Debug, PartialEq, Eq)]
pub struct RequestResult {
    pub outcome: Outcome,
    pub method: Span,
    pub scheme: Span,
    pub authority: Span,
    pub path: Span,
    pub headers: Section,
    pub content: Span,
    pub trailers: Section,
    pub padding: Span,
}

#[repr(C)]
#[derive(Clone, Copy, Debug, PartialEq, Eq)]
pub struct RequestPartResult {
    pub outcome: Outcome,
    pub span: Span,
}

#[repr(C)]
#[derive(Clone, Copy, Debug, PartialEq, Eq)]
pub struct NextFieldResult {
    pub outcome: Outcome,
    pub name: Span,
    pub value: Span,
    pub next: usize,
}

#[repr(C)]
#[derive(Clone, Copy, Debug, PartialEq, Eq)]
pub struct SizesResult {
    pub gateway: usize,
    pub outcome: usize,
    pub setup: usize,
    pub admit: usize,
    pub open: usize,
    pub respond: usize,
    pub report: usize,
    pub check: usize,
    pub key: usize,
    pub write: usize,
    pub choose: usize,
    pub head: usize,
    pub split: usize,
    pub exporter: usize,
}

#[repr(C)]
#[derive(Clone, Copy, Debug, PartialEq, Eq)]
pub struct MessageSizesResult {
    pub request: usize,
    pub request_part: usize,
    pub next_field: usize,
}

const _: () = assert!(size_of::<Gateway>() == GATEWAY_SIZE);
const _: () = assert!(size_of::<Outcome>() == 24);
const _: () = assert!(size_of::<SetupResult>() == 32);
const _: () = assert!(size_of::<AdmitResult>() == 72);
const _: () = assert!(size_of::<OpenResult>() == 32);
const _: () = assert!(size_of::<RespondResult>() == 32);
const _: () = assert!(size_of::<KeyReport>() == 12);
const _: () = assert!(size_of::<ReportResult>() == 240);
const _: () = assert!(size_of::<CheckResult>() == 40);
const _: () = assert!(size_of::<KeyResult>() == 40);
const _: () = assert!(size_of::<WriteResult>() == 32);
const _: () = assert!(size_of::<ChooseResult>() == 48);
const _: () = assert!(size_of::<HeadResult>() == 32);
const _: () = assert!(size_of::<SplitResult>() == 40);
const _: () = assert!(size_of::<ExporterResult>() == 40);
const _: () = assert!(size_of::<SizesResult>() == 112);
const _: () = assert!(size_of::<RequestResult>() == 168);
const _: () = assert!(size_of::<RequestPartResult>() == 40);
const _: () = assert!(size_of::<NextFieldResult>() == 64);
const _: () = assert!(size_of::<MessageSizesResult>() == 24);

extern "C" {
    pub fn sealwax_setup(
        gateway: *mut Gateway,
        list: *const u8,
        list_length: usize,
        cap: u64,
    ) -> SetupResult;
    pub fn sealwax_admit(
        gateway: *mut Gateway,
        request: *const u8,
        request_length: usize,
        info: *mut u8,
        info_length: usize,
    ) -> AdmitResult;
    pub fn sealwax_open(gateway: *mut Gateway, ticket: u64, success: u8, n: u64) -> OpenResult;
    pub fn sealwax_respond(
        gateway: *mut Gateway,
        ticket: u64,
        enc: *const u8,
        enc_length: usize,
        nonce: *const u8,
        nonce_length: usize,
        plain_length: u64,
        salt: *mut u8,
        salt_length: usize,
    ) -> RespondResult;
    pub fn sealwax_abandon(gateway: *mut Gateway, ticket: u64) -> Outcome;
    pub fn sealwax_retire(gateway: *mut Gateway, key_id: u8) -> Outcome;
    pub fn sealwax_report(gateway: *const Gateway) -> ReportResult;
    #[allow(dead_code)]
    pub fn sealwax_plain_find(gateway: *mut Gateway, ticket: u64) -> usize;
    #[allow(dead_code)]
    pub fn sealwax_find(gateway: *mut Gateway, ticket: u64, near: u64) -> usize;
    pub fn sealwax_check(list: *const u8, list_length: usize) -> CheckResult;
    pub fn sealwax_key(list: *const u8, list_length: usize, key_id: u8) -> KeyResult;
    pub fn sealwax_write(
        key_ids: *const u8,
        key_ids_length: usize,
        kems: *const u16,
        kems_length: usize,
        key_lengths: *const usize,
        key_lengths_length: usize,
        keys: *const u8,
        keys_length: usize,
        pair_counts: *const usize,
        pair_counts_length: usize,
        pairs: *const u16,
        pairs_length: usize,
        buffer: *mut u8,
        buffer_length: usize,
    ) -> WriteResult;
    pub fn sealwax_choose(
        list: *const u8,
        list_length: usize,
        kems: *const u16,
        kems_length: usize,
        pairs: *const u16,
        pairs_length: usize,
    ) -> ChooseResult;
    pub fn sealwax_head(
        key_id: u8,
        kem: u16,
        kdf: u16,
        aead: u16,
        enc: *const u8,
        enc_length: usize,
        head: *mut u8,
        head_length: usize,
        info: *mut u8,
        info_length: usize,
    ) -> HeadResult;
    pub fn sealwax_split(aead: u16, response: *const u8, response_length: usize) -> SplitResult;
    pub fn sealwax_exporter(aead: u16, context: *mut u8, context_length: usize) -> ExporterResult;
    pub fn sealwax_request(message: *const u8, message_length: usize) -> RequestResult;
    #[allow(dead_code)]
    pub fn sealwax_request_part(
        message: *const u8,
        message_length: usize,
        part: u8,
    ) -> RequestPartResult;
    pub fn sealwax_next_field(
        message: *const u8,
        section_end: usize,
        place: usize,
    ) -> NextFieldResult;
    #[allow(dead_code)]
    pub fn sealwax_sizes() -> SizesResult;
    #[allow(dead_code)]
    pub fn sealwax_message_sizes() -> MessageSizesResult;
}

/// A fresh gateway, on refusal one without keys, cap 1.
pub fn setup(list: &[u8], cap: u64) -> (Box<Gateway>, SetupResult) {
    let mut gateway = Box::new(Gateway {
        opaque: [MaybeUninit::new(0); GATEWAY_SIZE / 8],
        one_lock: PhantomData,
    });
    // SAFETY: the gateway has the size that the library writes, and the slice is whole.
    let result = unsafe { sealwax_setup(&mut *gateway, list.as_ptr(), list.len(), cap) };
    (gateway, result)
}

pub fn admit(gateway: &mut Gateway, request: &[u8], info: &mut [u8]) -> AdmitResult {
    // SAFETY: setup made the gateway; it and the buffer are borrowed mutably; the slices are whole.
    unsafe {
        sealwax_admit(
            gateway,
            request.as_ptr(),
            request.len(),
            info.as_mut_ptr(),
            info.len(),
        )
    }
}

pub fn open(gateway: &mut Gateway, ticket: u64, success: u8, n: u64) -> OpenResult {
    // SAFETY: setup made the gateway, and it is borrowed mutably.
    unsafe { sealwax_open(gateway, ticket, success, n) }
}

pub fn respond(
    gateway: &mut Gateway,
    ticket: u64,
    enc: &[u8],
    nonce: &[u8],
    plain_length: u64,
    salt: &mut [u8],
) -> RespondResult {
    // SAFETY: setup made the gateway; it and the buffer are borrowed mutably; the slices are whole.
    unsafe {
        sealwax_respond(
            gateway,
            ticket,
            enc.as_ptr(),
            enc.len(),
            nonce.as_ptr(),
            nonce.len(),
            plain_length,
            salt.as_mut_ptr(),
            salt.len(),
        )
    }
}

pub fn abandon(gateway: &mut Gateway, ticket: u64) -> Outcome {
    // SAFETY: setup made the gateway, and it is borrowed mutably.
    unsafe { sealwax_abandon(gateway, ticket) }
}

pub fn retire(gateway: &mut Gateway, key_id: u8) -> Outcome {
    // SAFETY: setup made the gateway, and it is borrowed mutably.
    unsafe { sealwax_retire(gateway, key_id) }
}

pub fn report(gateway: &Gateway) -> ReportResult {
    // SAFETY: setup made the gateway; nothing writes it, and no other thread has it meanwhile.
    unsafe { sealwax_report(gateway) }
}

/// The search alone, for tests and for measuring what it costs: the walk, and by home.
#[allow(dead_code)]
pub fn plain_find(gateway: &mut Gateway, ticket: u64) -> usize {
    // SAFETY: setup made the gateway, and no other thread has it meanwhile.
    unsafe { sealwax_plain_find(gateway, ticket) }
}

#[allow(dead_code)]
pub fn find(gateway: &mut Gateway, ticket: u64, near: u64) -> usize {
    // SAFETY: setup made the gateway, and no other thread has it meanwhile.
    unsafe { sealwax_find(gateway, ticket, near) }
}

pub fn check(list: &[u8]) -> CheckResult {
    // SAFETY: the slice is whole.
    unsafe { sealwax_check(list.as_ptr(), list.len()) }
}

pub fn key(list: &[u8], key_id: u8) -> KeyResult {
    // SAFETY: the slice is whole.
    unsafe { sealwax_key(list.as_ptr(), list.len(), key_id) }
}

/// Configurations as the C interface takes them: a slice for each field.
#[derive(Clone, Debug, Default)]
pub struct Fields {
    pub key_ids: Vec<u8>,
    pub kems: Vec<u16>,
    pub key_lengths: Vec<usize>,
    pub keys: Vec<u8>,
    pub pair_counts: Vec<usize>,
    pub pairs: Vec<u16>,
}

pub fn write(fields: &Fields, buffer: &mut [u8]) -> WriteResult {
    // SAFETY: the slices are whole, and the buffer is borrowed mutably.
    unsafe {
        sealwax_write(
            fields.key_ids.as_ptr(),
            fields.key_ids.len(),
            fields.kems.as_ptr(),
            fields.kems.len(),
            fields.key_lengths.as_ptr(),
            fields.key_lengths.len(),
            fields.keys.as_ptr(),
            fields.keys.len(),
            fields.pair_counts.as_ptr(),
            fields.pair_counts.len(),
            fields.pairs.as_ptr(),
            fields.pairs.len(),
            buffer.as_mut_ptr(),
            buffer.len(),
        )
    }
}

pub fn choose(list: &[u8], kems: &[u16], pairs: &[u16]) -> ChooseResult {
    // SAFETY: the slices are whole.
    unsafe {
        sealwax_choose(
            list.as_ptr(),
            list.len(),
            kems.as_ptr(),
            kems.len(),
            pairs.as_ptr(),
            pairs.len(),
        )
    }
}

pub fn head(
    key_id: u8,
    kem: u16,
    (kdf, aead): (u16, u16),
    enc: &[u8],
    head: &mut [u8],
    info: &mut [u8],
) -> HeadResult {
    // SAFETY: the slices are whole, and the buffers are borrowed mutably.
    unsafe {
        sealwax_head(
            key_id,
            kem,
            kdf,
            aead,
            enc.as_ptr(),
            enc.len(),
            head.as_mut_ptr(),
            head.len(),
            info.as_mut_ptr(),
            info.len(),
        )
    }
}

pub fn split(aead: u16, response: &[u8]) -> SplitResult {
    // SAFETY: the slice is whole.
    unsafe { sealwax_split(aead, response.as_ptr(), response.len()) }
}

pub fn exporter(aead: u16, context: &mut [u8]) -> ExporterResult {
    // SAFETY: the slice is whole and borrowed mutably.
    unsafe { sealwax_exporter(aead, context.as_mut_ptr(), context.len()) }
}

pub fn request(message: &[u8]) -> RequestResult {
    // SAFETY: the slice is whole.
    unsafe { sealwax_request(message.as_ptr(), message.len()) }
}

/// One part by its number, for tests: the crate has them all of [`request`].
#[allow(dead_code)]
pub fn request_part(message: &[u8], part: u8) -> RequestPartResult {
    // SAFETY: the slice is whole.
    unsafe { sealwax_request_part(message.as_ptr(), message.len(), part) }
}

/// The field at a place, of a message up to the section's end.
#[inline]
pub fn next_field(up_to_end: &[u8], place: usize) -> NextFieldResult {
    // SAFETY: the slice is whole.
    unsafe { sealwax_next_field(up_to_end.as_ptr(), up_to_end.len(), place) }
}

/// What the tests hold the sizes above against.
#[allow(dead_code)]
pub fn sizes() -> SizesResult {
    // SAFETY: it takes nothing, and answers a struct of the size asserted above.
    unsafe { sealwax_sizes() }
}

/// The same of the calls on messages.
#[allow(dead_code)]
pub fn message_sizes() -> MessageSizesResult {
    // SAFETY: it takes nothing, and answers a struct of the size asserted above.
    unsafe { sealwax_message_sizes() }
}
