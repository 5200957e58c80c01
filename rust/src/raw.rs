//! The library's functions as they are: a slice crosses as a pointer and a length. include/lu62.h says what each does. Behind them
//! stand the same calls on slices, which are safe: every use of a pointer in this crate is in this file.

/// What a call answers, as the library writes it.
#[repr(C)]
#[derive(Clone, Copy, Debug, Default, PartialEq, Eq)]
pub struct Answer {
    pub refusal: u32,
    pub sense: u32,
    pub rule: u32,
    pub unit: u32,
    pub copied: u32,
    pub complete: u32,
    pub more: u32,
    pub mark: u32,
    pub signalled: u32,
}

/// A call lent the image alone.
pub type ByImage = unsafe extern "C" fn(*mut u8, usize, *mut Answer) -> u32;

/// A call lent the image and the unit buffer.
pub type ByUnit = unsafe extern "C" fn(*mut u8, usize, *mut u8, usize, *mut Answer) -> u32;

/// A call lent the image, bytes that it only reads (the send buffer, or a unit taken), and the unit buffer.
pub type ByRead = unsafe extern "C" fn(*mut u8, usize, *const u8, usize, *mut u8, usize, *mut Answer) -> u32;

/// The same with the byte `confirm` behind the image.
pub type ByReadConfirmed = unsafe extern "C" fn(*mut u8, usize, u8, *const u8, usize, *mut u8, usize, *mut Answer) -> u32;

/// A call lent the image, bytes that it only reads, a buffer that keeps bytes, and the unit buffer.
pub type ByBytes = unsafe extern "C" fn(*mut u8, usize, *const u8, usize, *mut u8, usize, *mut u8, usize, *mut Answer) -> u32;

extern "C" {
    pub fn lu62_open(
        role: u8,
        out_window: u8,
        in_window: u8,
        out_max: u32,
        in_max: u32,
        send_length: usize,
        unit_length: usize,
        inbox_length: usize,
        image: *mut u8,
        image_length: usize,
        answer: *mut Answer,
    ) -> u32;

    pub fn lu62_open_bind(
        role: u8,
        out_window: u8,
        in_window: u8,
        out_size: u8,
        in_size: u8,
        send_length: usize,
        unit_length: usize,
        inbox_length: usize,
        image: *mut u8,
        image_length: usize,
        answer: *mut Answer,
    ) -> u32;

    pub fn lu62_size_byte(max: u32, byte: *mut u8) -> u32;

    pub fn lu62_allocate(image: *mut u8, image_length: usize, unit: *mut u8, unit_length: usize, answer: *mut Answer) -> u32;

    pub fn lu62_send_data(
        image: *mut u8,
        image_length: usize,
        bytes: *const u8,
        bytes_length: usize,
        send: *mut u8,
        send_length: usize,
        unit: *mut u8,
        unit_length: usize,
        answer: *mut Answer,
    ) -> u32;

    pub fn lu62_flush(
        image: *mut u8,
        image_length: usize,
        send: *const u8,
        send_length: usize,
        unit: *mut u8,
        unit_length: usize,
        answer: *mut Answer,
    ) -> u32;

    pub fn lu62_confirm(
        image: *mut u8,
        image_length: usize,
        send: *const u8,
        send_length: usize,
        unit: *mut u8,
        unit_length: usize,
        answer: *mut Answer,
    ) -> u32;

    pub fn lu62_prepare_to_receive(
        image: *mut u8,
        image_length: usize,
        confirm: u8,
        send: *const u8,
        send_length: usize,
        unit: *mut u8,
        unit_length: usize,
        answer: *mut Answer,
    ) -> u32;

    pub fn lu62_deallocate(
        image: *mut u8,
        image_length: usize,
        confirm: u8,
        send: *const u8,
        send_length: usize,
        unit: *mut u8,
        unit_length: usize,
        answer: *mut Answer,
    ) -> u32;

    pub fn lu62_defer_turn(image: *mut u8, image_length: usize, answer: *mut Answer) -> u32;

    pub fn lu62_defer_end(image: *mut u8, image_length: usize, answer: *mut Answer) -> u32;

    pub fn lu62_withdraw(image: *mut u8, image_length: usize, answer: *mut Answer) -> u32;

    pub fn lu62_confirmed(image: *mut u8, image_length: usize, unit: *mut u8, unit_length: usize, answer: *mut Answer) -> u32;

    pub fn lu62_send_error(image: *mut u8, image_length: usize, unit: *mut u8, unit_length: usize, answer: *mut Answer) -> u32;

    pub fn lu62_request_to_send(
        image: *mut u8,
        image_length: usize,
        unit: *mut u8,
        unit_length: usize,
        answer: *mut Answer,
    ) -> u32;

    pub fn lu62_send_pacing_response(
        image: *mut u8,
        image_length: usize,
        unit: *mut u8,
        unit_length: usize,
        answer: *mut Answer,
    ) -> u32;

    pub fn lu62_receive_unit(
        image: *mut u8,
        image_length: usize,
        taken: *const u8,
        taken_length: usize,
        inbox: *mut u8,
        inbox_length: usize,
        unit: *mut u8,
        unit_length: usize,
        answer: *mut Answer,
    ) -> u32;

    pub fn lu62_receive_expedited(
        image: *mut u8,
        image_length: usize,
        taken: *const u8,
        taken_length: usize,
        unit: *mut u8,
        unit_length: usize,
        answer: *mut Answer,
    ) -> u32;

    pub fn lu62_receive(
        image: *mut u8,
        image_length: usize,
        inbox: *mut u8,
        inbox_length: usize,
        buffer: *mut u8,
        buffer_length: usize,
        answer: *mut Answer,
    ) -> u32;
}

/// Opens a session: writes its record to the image.
#[allow(clippy::too_many_arguments)]
pub fn open(
    role: u8,
    out_window: u8,
    in_window: u8,
    out_max: u32,
    in_max: u32,
    send_length: usize,
    unit_length: usize,
    inbox_length: usize,
    image: &mut [u8],
) -> Answer {
    let mut answer = Answer::default();
    // SAFETY: the image is borrowed mutably and as long as said; the answer is a local of the library's layout.
    unsafe {
        lu62_open(
            role,
            out_window,
            in_window,
            out_max,
            in_max,
            send_length,
            unit_length,
            inbox_length,
            image.as_mut_ptr(),
            image.len(),
            &mut answer,
        );
    }
    answer
}

/// Opens a session by its bytes: writes its record to the image.
#[allow(clippy::too_many_arguments)]
pub fn open_bind(
    role: u8,
    out_window: u8,
    in_window: u8,
    out_size: u8,
    in_size: u8,
    send_length: usize,
    unit_length: usize,
    inbox_length: usize,
    image: &mut [u8],
) -> Answer {
    let mut answer = Answer::default();
    // SAFETY: the image is borrowed mutably and as long as said; the answer is a local of the library's layout.
    unsafe {
        lu62_open_bind(
            role,
            out_window,
            in_window,
            out_size,
            in_size,
            send_length,
            unit_length,
            inbox_length,
            image.as_mut_ptr(),
            image.len(),
            &mut answer,
        );
    }
    answer
}

/// The refusal number of a maximum RU, 0 if it has a size byte; and that byte.
pub fn size_byte(max: u32) -> (u32, u8) {
    let mut byte = 0;
    // SAFETY: the byte is a local, and the library writes nothing else.
    let refusal = unsafe { lu62_size_byte(max, &mut byte) };
    (refusal, byte)
}

fn by_image(call: ByImage, image: &mut [u8]) -> Answer {
    let mut answer = Answer::default();
    // SAFETY: the image is borrowed mutably and as long as said; the answer is a local of the library's layout. `call` is one of this
    // file's, which touch nothing else.
    unsafe {
        call(image.as_mut_ptr(), image.len(), &mut answer);
    }
    answer
}

fn by_unit(call: ByUnit, image: &mut [u8], unit: &mut [u8]) -> Answer {
    let mut answer = Answer::default();
    // SAFETY: both slices are borrowed mutably, so they do not overlap; the answer is a local of the library's layout. `call` is one
    // of this file's, which touch nothing else.
    unsafe {
        call(image.as_mut_ptr(), image.len(), unit.as_mut_ptr(), unit.len(), &mut answer);
    }
    answer
}

fn by_read(call: ByRead, image: &mut [u8], bytes: &[u8], unit: &mut [u8]) -> Answer {
    let mut answer = Answer::default();
    // SAFETY: the slices written are borrowed mutably and `bytes` beside them, so none overlap; the library only reads `bytes`.
    unsafe {
        call(image.as_mut_ptr(), image.len(), bytes.as_ptr(), bytes.len(), unit.as_mut_ptr(), unit.len(), &mut answer);
    }
    answer
}

fn by_read_confirmed(call: ByReadConfirmed, image: &mut [u8], confirm: bool, send: &[u8], unit: &mut [u8]) -> Answer {
    let mut answer = Answer::default();
    let confirm = u8::from(confirm);
    // SAFETY: the slices written are borrowed mutably and `send` beside them, so none overlap; the library only reads `send`.
    unsafe {
        call(image.as_mut_ptr(), image.len(), confirm, send.as_ptr(), send.len(), unit.as_mut_ptr(), unit.len(), &mut answer);
    }
    answer
}

fn by_bytes(call: ByBytes, image: &mut [u8], bytes: &[u8], buffer: &mut [u8], unit: &mut [u8]) -> Answer {
    let mut answer = Answer::default();
    // SAFETY: the slices written are borrowed mutably and `bytes` beside them, so none overlap; the library only reads `bytes`.
    unsafe {
        call(
            image.as_mut_ptr(),
            image.len(),
            bytes.as_ptr(),
            bytes.len(),
            buffer.as_mut_ptr(),
            buffer.len(),
            unit.as_mut_ptr(),
            unit.len(),
            &mut answer,
        );
    }
    answer
}

pub fn allocate(image: &mut [u8], unit: &mut [u8]) -> Answer {
    by_unit(lu62_allocate, image, unit)
}

pub fn send_data(image: &mut [u8], bytes: &[u8], send: &mut [u8], unit: &mut [u8]) -> Answer {
    by_bytes(lu62_send_data, image, bytes, send, unit)
}

pub fn flush(image: &mut [u8], send: &[u8], unit: &mut [u8]) -> Answer {
    by_read(lu62_flush, image, send, unit)
}

pub fn confirm(image: &mut [u8], send: &[u8], unit: &mut [u8]) -> Answer {
    by_read(lu62_confirm, image, send, unit)
}

pub fn prepare_to_receive(image: &mut [u8], confirm: bool, send: &[u8], unit: &mut [u8]) -> Answer {
    by_read_confirmed(lu62_prepare_to_receive, image, confirm, send, unit)
}

pub fn deallocate(image: &mut [u8], confirm: bool, send: &[u8], unit: &mut [u8]) -> Answer {
    by_read_confirmed(lu62_deallocate, image, confirm, send, unit)
}

pub fn defer_turn(image: &mut [u8]) -> Answer {
    by_image(lu62_defer_turn, image)
}

pub fn defer_end(image: &mut [u8]) -> Answer {
    by_image(lu62_defer_end, image)
}

pub fn withdraw(image: &mut [u8]) -> Answer {
    by_image(lu62_withdraw, image)
}

pub fn confirmed(image: &mut [u8], unit: &mut [u8]) -> Answer {
    by_unit(lu62_confirmed, image, unit)
}

pub fn send_error(image: &mut [u8], unit: &mut [u8]) -> Answer {
    by_unit(lu62_send_error, image, unit)
}

pub fn request_to_send(image: &mut [u8], unit: &mut [u8]) -> Answer {
    by_unit(lu62_request_to_send, image, unit)
}

pub fn send_pacing_response(image: &mut [u8], unit: &mut [u8]) -> Answer {
    by_unit(lu62_send_pacing_response, image, unit)
}

pub fn receive_unit(image: &mut [u8], taken: &[u8], inbox: &mut [u8], unit: &mut [u8]) -> Answer {
    by_bytes(lu62_receive_unit, image, taken, inbox, unit)
}

pub fn receive_expedited(image: &mut [u8], taken: &[u8], unit: &mut [u8]) -> Answer {
    by_read(lu62_receive_expedited, image, taken, unit)
}

pub fn receive(image: &mut [u8], inbox: &mut [u8], buffer: &mut [u8]) -> Answer {
    let mut answer = Answer::default();
    // SAFETY: the three slices are borrowed mutably, so none overlap; the answer is a local of the library's layout.
    unsafe {
        lu62_receive(
            image.as_mut_ptr(),
            image.len(),
            inbox.as_mut_ptr(),
            inbox.len(),
            buffer.as_mut_ptr(),
            buffer.len(),
            &mut answer,
        );
    }
    answer
}
