//! The functions of the static library, called with slices. All unsafe code is here.
//!
//! The library is proved to answer every call, to read no byte that is not lent to it, to write
//! none that is not lent for writing, and to keep nothing after it returns. It asks nothing of the
//! values. What is left to this module is the C ABI: a slice goes as the address of its first element
//! and its length; answers about packets, new films and pictures that are encoded come back by value.

#![allow(unsafe_code)]

use crate::answer::Answer;
use crate::encode::Numbers as Written;
use crate::form::Form;
use crate::origin::Numbers as Found;
use crate::salvage::Numbers as Saved;
use crate::strip::Numbers as Stripped;
use crate::Pictures;

unsafe extern "C" {
    fn mve_check(
        columns: usize,
        rows: usize,
        map: *const u8,
        map_length: usize,
        data: *const u8,
        data_length: usize,
    ) -> Answer;

    fn mve_check_strict(
        columns: usize,
        rows: usize,
        map: *const u8,
        map_length: usize,
        data: *const u8,
        data_length: usize,
    ) -> Answer;

    fn mve_draw(
        columns: usize,
        rows: usize,
        map: *const u8,
        map_length: usize,
        data: *const u8,
        data_length: usize,
        front: *const u8,
        front_length: usize,
        back: *mut u8,
        back_length: usize,
        place: *mut usize,
        allowed: usize,
    ) -> Answer;

    fn mve_draw_strict(
        columns: usize,
        rows: usize,
        map: *const u8,
        map_length: usize,
        data: *const u8,
        data_length: usize,
        front: *const u8,
        front_length: usize,
        back: *mut u8,
        back_length: usize,
        place: *mut usize,
        allowed: usize,
    ) -> Answer;

    fn mve_check_words(
        columns: usize,
        rows: usize,
        map: *const u8,
        map_length: usize,
        data: *const u8,
        data_length: usize,
    ) -> Answer;

    fn mve_check_words_strict(
        columns: usize,
        rows: usize,
        map: *const u8,
        map_length: usize,
        data: *const u8,
        data_length: usize,
    ) -> Answer;

    fn mve_draw_words(
        columns: usize,
        rows: usize,
        map: *const u8,
        map_length: usize,
        data: *const u8,
        data_length: usize,
        last: *const u16,
        last_length: usize,
        oldest: *const u16,
        oldest_length: usize,
        drawn: *mut u16,
        drawn_length: usize,
        place: *mut usize,
        allowed: usize,
    ) -> Answer;

    fn mve_draw_words_strict(
        columns: usize,
        rows: usize,
        map: *const u8,
        map_length: usize,
        data: *const u8,
        data_length: usize,
        last: *const u16,
        last_length: usize,
        oldest: *const u16,
        oldest_length: usize,
        drawn: *mut u16,
        drawn_length: usize,
        place: *mut usize,
        allowed: usize,
    ) -> Answer;

    fn mve_open(
        film: *const u8,
        film_length: usize,
        stream: usize,
        out: *mut usize,
        out_numbers: usize,
    ) -> usize;

    fn mve_begin(
        film: *const u8,
        film_length: usize,
        stream: usize,
        out: *mut usize,
        out_numbers: usize,
        palette: *mut u8,
        palette_length: usize,
        place: *mut usize,
    ) -> usize;

    fn mve_step(
        film: *const u8,
        film_length: usize,
        from: *const usize,
        from_numbers: usize,
        out: *mut usize,
        out_numbers: usize,
        palette: *mut u8,
        palette_length: usize,
        a: *mut u8,
        a_length: usize,
        b: *mut u8,
        b_length: usize,
        c: *mut u16,
        c_length: usize,
        d: *mut u16,
        d_length: usize,
        e: *mut u16,
        e_length: usize,
        place: *mut usize,
        room: *mut u8,
        room_length: usize,
        allowed: usize,
        form: usize,
    ) -> usize;

    fn mve_shown(
        from: *const usize,
        from_numbers: usize,
        a: *const u8,
        a_length: usize,
        b: *const u8,
        b_length: usize,
    ) -> usize;

    fn mve_shown_words(
        from: *const usize,
        from_numbers: usize,
        c: *const u16,
        c_length: usize,
        d: *const u16,
        d_length: usize,
        e: *const u16,
        e_length: usize,
    ) -> usize;

    fn mve_origin(
        columns: usize,
        rows: usize,
        map: *const u8,
        map_length: usize,
        data: *const u8,
        data_length: usize,
        front: *const u8,
        front_length: usize,
        back: *const u8,
        back_length: usize,
        x: usize,
        y: usize,
    ) -> Found;

    fn mve_salvage(
        film: *const u8,
        film_length: usize,
        room: *mut u8,
        room_length: usize,
        list: *mut usize,
        list_numbers: usize,
    ) -> Saved;

    fn mve_strip(
        film: *const u8,
        film_length: usize,
        stream: usize,
        room: *mut u8,
        room_length: usize,
    ) -> Stripped;
    fn mve_encode(
        columns: usize,
        rows: usize,
        wanted: *const u8,
        wanted_length: usize,
        front: *const u8,
        front_length: usize,
        back: *const u8,
        back_length: usize,
        map: *mut u8,
        map_length: usize,
        body: *mut u8,
        body_length: usize,
    ) -> Written;
    fn mve_video1(
        columns: usize,
        rows: usize,
        data: *const u8,
        data_length: usize,
        picture: *mut u8,
        picture_length: usize,
    ) -> usize;
}

pub(crate) fn check(form: Form, columns: usize, rows: usize, map: &[u8], data: &[u8]) -> Answer {
    let call = match form {
        Form::Default => mve_check,
        Form::Strict => mve_check_strict,
    };
    // SAFETY: each address and length are those of a slice that lives through the call; that of an
    // empty slice is not null. Both are only read.
    unsafe { call(columns, rows, map.as_ptr(), map.len(), data.as_ptr(), data.len()) }
}

#[allow(clippy::too_many_arguments)] // those of the library's functions
pub(crate) fn draw(
    form: Form,
    columns: usize,
    rows: usize,
    map: &[u8],
    data: &[u8],
    front: &[u8],
    back: &mut [u8],
    place: &mut usize,
    allowed: usize,
) -> Answer {
    let call = match form {
        Form::Default => mve_draw,
        Form::Strict => mve_draw_strict,
    };
    // SAFETY: each address and length are those of a slice that lives through the call; that of an
    // empty slice is not null. Only `back` and `place` are written; they are borrowed mutably, so
    // they overlap neither each other nor anything that is only read.
    unsafe {
        call(
            columns,
            rows,
            map.as_ptr(),
            map.len(),
            data.as_ptr(),
            data.len(),
            front.as_ptr(),
            front.len(),
            back.as_mut_ptr(),
            back.len(),
            place,
            allowed,
        )
    }
}

pub(crate) fn check_words(
    form: Form,
    columns: usize,
    rows: usize,
    map: &[u8],
    data: &[u8],
) -> Answer {
    let call = match form {
        Form::Default => mve_check_words,
        Form::Strict => mve_check_words_strict,
    };
    // SAFETY: each address and length are those of a slice that lives through the call; that of an
    // empty slice is not null. Both are only read.
    unsafe { call(columns, rows, map.as_ptr(), map.len(), data.as_ptr(), data.len()) }
}

#[allow(clippy::too_many_arguments)] // those of the library's functions
pub(crate) fn draw_words(
    form: Form,
    columns: usize,
    rows: usize,
    map: &[u8],
    data: &[u8],
    last: &[u16],
    oldest: &[u16],
    drawn: &mut [u16],
    place: &mut usize,
    allowed: usize,
) -> Answer {
    let call = match form {
        Form::Default => mve_draw_words,
        Form::Strict => mve_draw_words_strict,
    };
    // SAFETY: each address and length are those of a slice that lives through the call; that of an
    // empty slice is not null, and that of a slice of words is aligned. Only `drawn` and `place` are
    // written; they are borrowed mutably, so they overlap neither each other nor anything that is only
    // read.
    unsafe {
        call(
            columns,
            rows,
            map.as_ptr(),
            map.len(),
            data.as_ptr(),
            data.len(),
            last.as_ptr(),
            last.len(),
            oldest.as_ptr(),
            oldest.len(),
            drawn.as_mut_ptr(),
            drawn.len(),
            place,
            allowed,
        )
    }
}

pub(crate) fn open(film: &[u8], stream: usize, out: &mut [usize]) -> usize {
    // SAFETY: each address and length are those of a slice that lives through the call; that of an
    // empty slice is not null. Only `out` is written; it is borrowed mutably, so it does not overlap
    // the film.
    unsafe { mve_open(film.as_ptr(), film.len(), stream, out.as_mut_ptr(), out.len()) }
}

pub(crate) fn begin(
    film: &[u8],
    stream: usize,
    out: &mut [usize],
    palette: &mut [u8],
    place: &mut usize,
) -> usize {
    // SAFETY: each address and length are those of a slice that lives through the call; that of an
    // empty slice is not null. Only `out`, the palette and `place` are written; they are borrowed
    // mutably, so they overlap neither each other nor the film.
    unsafe {
        mve_begin(
            film.as_ptr(),
            film.len(),
            stream,
            out.as_mut_ptr(),
            out.len(),
            palette.as_mut_ptr(),
            palette.len(),
            place,
        )
    }
}

#[allow(clippy::too_many_arguments)] // those of the library's function
pub(crate) fn step(
    film: &[u8],
    from: &[usize],
    out: &mut [usize],
    palette: &mut [u8],
    pictures: &mut Pictures<'_>,
    place: &mut usize,
    room: &mut [u8],
    allowed: usize,
    form: usize,
) -> usize {
    let Pictures { a, b, c, d, e } = pictures;
    // SAFETY: each address and length are those of a slice that lives through the call; that of an
    // empty slice is not null, and that of a slice of words is aligned. Only `out`, the palette, the pictures, `place` and the room are
    // written; they are borrowed mutably, so they overlap neither each other nor film and `from`.
    unsafe {
        mve_step(
            film.as_ptr(),
            film.len(),
            from.as_ptr(),
            from.len(),
            out.as_mut_ptr(),
            out.len(),
            palette.as_mut_ptr(),
            palette.len(),
            a.as_mut_ptr(),
            a.len(),
            b.as_mut_ptr(),
            b.len(),
            c.as_mut_ptr(),
            c.len(),
            d.as_mut_ptr(),
            d.len(),
            e.as_mut_ptr(),
            e.len(),
            place,
            room.as_mut_ptr(),
            room.len(),
            allowed,
            form,
        )
    }
}

/// How many bytes of the front picture of an 8-bit film are shown.
pub(crate) fn shown(from: &[usize], a: &[u8], b: &[u8]) -> usize {
    // SAFETY: each address and length are those of a slice that lives through the call; that of an
    // empty slice is not null. All are only read.
    unsafe { mve_shown(from.as_ptr(), from.len(), a.as_ptr(), a.len(), b.as_ptr(), b.len()) }
}

/// How many words of the front picture of a film with true colour are shown.
pub(crate) fn shown_words(from: &[usize], c: &[u16], d: &[u16], e: &[u16]) -> usize {
    // SAFETY: each address and length are those of a slice that lives through the call; that of an
    // empty slice is not null, and that of a slice of words is aligned. All are only read.
    unsafe {
        mve_shown_words(
            from.as_ptr(),
            from.len(),
            c.as_ptr(),
            c.len(),
            d.as_ptr(),
            d.len(),
            e.as_ptr(),
            e.len(),
        )
    }
}

#[allow(clippy::too_many_arguments)] // those of the library's function
pub(crate) fn origin(
    columns: usize,
    rows: usize,
    map: &[u8],
    data: &[u8],
    front: &[u8],
    back: &[u8],
    x: usize,
    y: usize,
) -> Found {
    // SAFETY: each address and length are those of a slice that lives through the call; that of an
    // empty slice is not null. All are only read.
    unsafe {
        mve_origin(
            columns,
            rows,
            map.as_ptr(),
            map.len(),
            data.as_ptr(),
            data.len(),
            front.as_ptr(),
            front.len(),
            back.as_ptr(),
            back.len(),
            x,
            y,
        )
    }
}

pub(crate) fn salvage(film: &[u8], room: &mut [u8], list: &mut [usize]) -> Saved {
    // SAFETY: each address and length are those of a slice that lives through the call; that of an
    // empty slice is not null. Only the room and the list are written; they are borrowed mutably, so
    // they overlap neither each other nor the film.
    unsafe {
        mve_salvage(
            film.as_ptr(),
            film.len(),
            room.as_mut_ptr(),
            room.len(),
            list.as_mut_ptr(),
            list.len(),
        )
    }
}

pub(crate) fn strip(film: &[u8], stream: usize, room: &mut [u8]) -> Stripped {
    // SAFETY: each address and length are those of a slice that lives through the call; that of an
    // empty slice is not null. Only the room is written; it is borrowed mutably, so it does not overlap
    // the film.
    unsafe { mve_strip(film.as_ptr(), film.len(), stream, room.as_mut_ptr(), room.len()) }
}

pub(crate) fn encode(
    columns: usize,
    rows: usize,
    wanted: &[u8],
    front: &[u8],
    back: &[u8],
    map: &mut [u8],
    body: &mut [u8],
) -> Written {
    // SAFETY: each address and length are those of a slice that lives through the call; that of an
    // empty slice is not null. Only map and body are written; they are borrowed mutably, so they overlap
    // neither each other nor the pictures.
    unsafe {
        mve_encode(
            columns,
            rows,
            wanted.as_ptr(),
            wanted.len(),
            front.as_ptr(),
            front.len(),
            back.as_ptr(),
            back.len(),
            map.as_mut_ptr(),
            map.len(),
            body.as_mut_ptr(),
            body.len(),
        )
    }
}

pub(crate) fn video1(columns: usize, rows: usize, data: &[u8], picture: &mut [u8]) -> usize {
    // SAFETY: each address and length are those of a slice that lives through the call; that of an
    // empty slice is not null. Only the picture is written; it is borrowed mutably, so it does not
    // overlap the data.
    unsafe {
        mve_video1(columns, rows, data.as_ptr(), data.len(), picture.as_mut_ptr(), picture.len())
    }
}
