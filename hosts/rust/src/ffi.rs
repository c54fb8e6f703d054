//! The C boundary. A slice crosses as a pointer and a length. The calls take any bytes and numbers; what they ask for is that the memory is there, and that what
//! they write is nobody else's during the call: slices and references of Rust give both.
use crate::refusal::Refusal;

/// The numbers of a field cursor: most, count, cursor, base, noted.
pub type State = [usize; 5];

unsafe extern "C" {
    pub fn owl_check_catalogue(cat: *const u8, cat_len: usize) -> u8;
    pub fn owl_admit(cat: *const u8, cat_len: usize, layout: *const u8, layout_len: usize) -> u8;
    pub fn owl_record_size(
        cat: *const u8,
        cat_len: usize,
        layout: *const u8,
        layout_len: usize,
        k: usize,
        size: *mut usize,
    ) -> u8;
    pub fn owl_window(
        bytes: *const u8,
        bytes_len: usize,
        offset: usize,
        size: usize,
        start: *mut usize,
        end: *mut usize,
    ) -> u8;
    pub fn owl_field_of(table: *const u8, table_len: usize, k: usize, field: *mut [u8; 16]) -> u8;

    pub fn owl_sum(bytes: *const u8, bytes_len: usize) -> u64;
    pub fn owl_layout_hash(
        cat: *const u8,
        cat_len: usize,
        layout: *const u8,
        layout_len: usize,
        k: usize,
        hash: *mut u64,
        visits: *mut usize,
    ) -> u8;
    pub fn owl_layout_hash_within(
        cat: *const u8,
        cat_len: usize,
        layout: *const u8,
        layout_len: usize,
        k: usize,
        budget: usize,
        hash: *mut u64,
        visits: *mut usize,
    ) -> u8;
    pub fn owl_boot_check(
        cat: *const u8,
        cat_len: usize,
        layout: *const u8,
        layout_len: usize,
        k: usize,
    ) -> u8;

    pub fn owl_verdict(
        cat: *const u8,
        cat_len: usize,
        stream: *const u8,
        stream_len: usize,
        k: usize,
        compiled: *const u8,
        compiled_len: usize,
    ) -> u8;
    pub fn owl_verdict_of(
        cat: *const u8,
        cat_len: usize,
        stream: *const u8,
        stream_len: usize,
        rtype: u16,
        compiled: *const u8,
        compiled_len: usize,
    ) -> u8;
    pub fn owl_field_by_id(
        cat: *const u8,
        cat_len: usize,
        layout: *const u8,
        layout_len: usize,
        rtype: u16,
        id: u16,
        field: *mut [u8; 16],
    ) -> u8;
    pub fn owl_field_by_name(
        cat: *const u8,
        cat_len: usize,
        layout: *const u8,
        layout_len: usize,
        rtype: u16,
        name: *const u8,
        name_len: usize,
        field: *mut [u8; 16],
    ) -> u8;

    pub fn owl_cursor_empty(of_struct: bool, state: *mut State);
    pub fn owl_cursor_scalar(
        cat: *const u8,
        cat_len: usize,
        table: *mut u8,
        table_len: usize,
        names: *mut u8,
        names_len: usize,
        state: *mut State,
        field_id: u16,
        type_id: u8,
        size: u16,
        flags: u8,
        def_index: u16,
        name: *const u8,
        name_len: usize,
    ) -> u8;
    pub fn owl_cursor_string(
        cat: *const u8,
        cat_len: usize,
        table: *mut u8,
        table_len: usize,
        names: *mut u8,
        names_len: usize,
        state: *mut State,
        field_id: u16,
        type_id: u8,
        size: u16,
        flags: u8,
        name: *const u8,
        name_len: usize,
    ) -> u8;
    pub fn owl_cursor_like(
        cat: *const u8,
        cat_len: usize,
        table: *mut u8,
        table_len: usize,
        names: *mut u8,
        names_len: usize,
        state: *mut State,
        like: *const [u8; 16],
        def_index: u16,
        name: *const u8,
        name_len: usize,
    ) -> u8;
    pub fn owl_cursor_nested(
        cat: *const u8,
        cat_len: usize,
        layout: *const u8,
        layout_len: usize,
        table: *mut u8,
        table_len: usize,
        names: *mut u8,
        names_len: usize,
        state: *mut State,
        field_id: u16,
        k: u16,
        name: *const u8,
        name_len: usize,
    ) -> u8;
    pub fn owl_cursor_nested_array(
        cat: *const u8,
        cat_len: usize,
        layout: *const u8,
        layout_len: usize,
        table: *mut u8,
        table_len: usize,
        names: *mut u8,
        names_len: usize,
        state: *mut State,
        field_id: u16,
        k: u16,
        count: u16,
        name: *const u8,
        name_len: usize,
    ) -> u8;
    pub fn owl_cursor_at(
        cat: *const u8,
        cat_len: usize,
        table: *mut u8,
        table_len: usize,
        names: *mut u8,
        names_len: usize,
        state: *mut State,
        offset: usize,
    ) -> u8;
    pub fn owl_cursor_finish_base(
        cat: *const u8,
        cat_len: usize,
        table: *mut u8,
        table_len: usize,
        names: *mut u8,
        names_len: usize,
        state: *mut State,
    ) -> u8;
    pub fn owl_cursor_finish(
        cat: *const u8,
        cat_len: usize,
        table: *mut u8,
        table_len: usize,
        names: *mut u8,
        names_len: usize,
        state: *mut State,
        ids: *const u16,
        ids_len: usize,
    ) -> u8;

    pub fn owl_select(
        cat: *const u8,
        cat_len: usize,
        source: *const u8,
        source_len: usize,
        k: usize,
        target: *const u8,
        target_len: usize,
        wanted: bool,
        schema: u16,
        number: *mut usize,
    ) -> u8;
    pub fn owl_plan(
        cat: *const u8,
        cat_len: usize,
        source: *const u8,
        source_len: usize,
        k: usize,
        target: *const u8,
        target_len: usize,
        to: usize,
        header: usize,
        body: *const u8,
        body_len: usize,
        marks: *const u8,
        marks_len: usize,
        room: *mut u8,
        room_len: usize,
    ) -> u8;

    pub fn owl_apply(
        slot: *const u8,
        slot_len: usize,
        src: *const u8,
        src_len: usize,
        stated: usize,
        dst: *mut u8,
        dst_len: usize,
        became: *mut u16,
        size: *mut usize,
    ) -> u8;
    pub fn owl_upgrade(
        plans: *const u8,
        plans_len: usize,
        unplanned: *const u16,
        unplanned_len: usize,
        rtype: u16,
        src_header: usize,
        dst_header: usize,
        src: *const u8,
        src_len: usize,
        stated: usize,
        dst: *mut u8,
        dst_len: usize,
        became: *mut u16,
        size: *mut usize,
    ) -> u8;

    pub fn owl_check_plan(plan: *const u8, plan_len: usize) -> u8;
    pub fn owl_write_plan(
        plan: *const u8,
        plan_len: usize,
        text: *mut u8,
        text_len: usize,
        length: *mut usize,
    ) -> u8;
    pub fn owl_read_plan(text: *const u8, text_len: usize, plan: *mut u8, plan_len: usize) -> u8;
}

// ---- statuses

/// What a status says that is no refusal.
pub enum Told {
    Answer,
    /// Dynamic, unplanned, or different: the call's second answer.
    Other,
    /// No such record or field, or not inside.
    Nothing,
}

#[inline]
pub fn told(status: u8) -> Result<Told, Refusal> {
    match status {
        0 => Ok(Told::Answer),
        254 => Ok(Told::Other),
        255 => Ok(Told::Nothing),
        number => Err(Refusal::of_number(number).expect("a status of the C boundary")),
    }
}

/// Of a call that answers or refuses.
#[inline]
pub fn fine(status: u8) -> Result<(), Refusal> {
    match told(status)? {
        Told::Answer => Ok(()),
        Told::Other | Told::Nothing => unreachable!("the call has one answer"),
    }
}

/// Of a call that may also answer none; `answer` is what it left in the lent numbers or bytes.
#[inline]
pub fn perhaps<T>(status: u8, answer: T) -> Result<Option<T>, Refusal> {
    match told(status)? {
        Told::Answer => Ok(Some(answer)),
        Told::Nothing => Ok(None),
        Told::Other => unreachable!("the call has no second answer"),
    }
}

/// Of a call with two answers that may also answer none.
#[inline]
pub fn either<T>(status: u8, answer: T, other: T) -> Result<Option<T>, Refusal> {
    Ok(match told(status)? {
        Told::Answer => Some(answer),
        Told::Other => Some(other),
        Told::Nothing => None,
    })
}
