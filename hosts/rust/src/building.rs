//! The field cursor: fields are placed one behind the other, each where its type aligns it.
use crate::{
    ffi::{self, State, fine},
    field::FieldDef,
    refusal::Refusal,
};

/// What is built: a record's table, or a struct's.
#[derive(Clone, Copy, Debug, PartialEq, Eq, Hash)]
pub enum Holder {
    /// At most 128 fields.
    Record,
    /// At most 32 fields.
    Struct,
}

/// What a cursor is lent: a catalogue, and what it fills. A table or names with room for fewer fields than the holder may have are full sooner.
#[derive(Debug)]
pub struct Room<'a> {
    /// The catalogue; the calls do not ask whether it is valid.
    pub cat: &'a [u8],
    /// 16 bytes a field.
    pub table: &'a mut [u8],
    /// 33 bytes a field: the name's length and its bytes.
    pub names: &'a mut [u8],
}

/// Where a field cursor stands. A refused call leaves it, the table and the names as they were.
///
/// ```
/// use tuppenceowl::{Catalogue, FieldCursor, FieldDef, Holder, Refusal, Room, dbn};
///
/// let cat = Catalogue::dbn(1).to_bytes();
/// let (mut table, mut names) = ([0; 16 * 128], [0; 33 * 128]);
/// let mut room = Room { cat: &cat, table: &mut table, names: &mut names };
///
/// let mut cursor = FieldCursor::empty(Holder::Record);
/// cursor.scalar(&mut room, 2, dbn::U8, 1, 0, 0, b"flags")?;
/// cursor.scalar(&mut room, 3, dbn::U64, 8, 0, 0, b"sequence")?;
/// cursor.string(&mut room, 4, dbn::CSTR, 5, 0, b"symbol")?;
/// assert_eq!(cursor.scalar(&mut room, 5, dbn::U64, 7, 0, 0, b"seven"), Err(Refusal::BadCall));
/// cursor.finish(&mut room, &[3])?;
///
/// // the listed id first, then the others in their order, padding among them
/// assert_eq!((cursor.count, cursor.cursor, cursor.base), (5, 24, Some(24)));
/// let fields = FieldDef::all_from(&table[..16 * cursor.count]);
/// let ids: Vec<u16> = fields.iter().map(|f| f.field_id).collect();
/// assert_eq!(ids, [3, 2, 0, 4, 0]);
/// assert_eq!((fields[0].offset, fields[3].offset), (8, 16));
/// # Ok::<_, Refusal>(())
/// ```
#[derive(Clone, Copy, Debug, PartialEq, Eq, Hash)]
pub struct FieldCursor {
    /// The most fields that the table may have.
    pub most: usize,
    /// How many it has.
    pub count: usize,
    /// Where the next field may start.
    pub cursor: usize,
    /// The base, once it is noted.
    pub base: Option<usize>,
}

/// A call over room and state; a layout stands behind the catalogue. The state comes back whatever is answered: that a refusal leaves it is the library's promise.
macro_rules! call {
    ($self:ident.$owl:ident($room:ident $(, $layout:ident)?; $($given:expr),*)) => {{
        let mut state = $self.state();
        // SAFETY: pointers and lengths are of one slice each; table, names and state are borrowed mutably for the call
        let status = unsafe {
            ffi::$owl(
                $room.cat.as_ptr(),
                $room.cat.len(),
                $($layout.as_ptr(), $layout.len(),)?
                $room.table.as_mut_ptr(),
                $room.table.len(),
                $room.names.as_mut_ptr(),
                $room.names.len(),
                &mut state,
                $($given),*
            )
        };
        *$self = FieldCursor::of(state);
        fine(status)
    }};
}

impl FieldCursor {
    /// At the start of an empty table.
    #[inline]
    pub fn empty(holder: Holder) -> FieldCursor {
        let mut state = [0; 5];
        // SAFETY: the state is borrowed for the call
        unsafe { ffi::owl_cursor_empty(holder == Holder::Struct, &mut state) };
        FieldCursor::of(state)
    }

    /// An integer, a decimal or another type with a width, or an array of it. (Refusals 2, 15, 14.)
    #[allow(clippy::too_many_arguments)] // what the proved call takes
    #[inline]
    pub fn scalar(
        &mut self,
        room: &mut Room,
        field_id: u16,
        type_id: u8,
        size: u16,
        flags: u8,
        def_index: u16,
        name: &[u8],
    ) -> Result<(), Refusal> {
        call!(self.owl_cursor_scalar(room; field_id, type_id, size, flags, def_index, name.as_ptr(), name.len()))
    }

    /// A string of any size. (Refusals 2, 15, 14.)
    #[inline]
    pub fn string(
        &mut self,
        room: &mut Room,
        field_id: u16,
        type_id: u8,
        size: u16,
        flags: u8,
        name: &[u8],
    ) -> Result<(), Refusal> {
        call!(self.owl_cursor_string(room; field_id, type_id, size, flags, name.as_ptr(), name.len()))
    }

    /// The numbers of another field, all but its place and its def_index; no struct. (Refusals 2, 15, 14.)
    ///
    /// ```
    /// use tuppenceowl::{Catalogue, FieldCursor, FieldDef, Holder, Room, dbn};
    ///
    /// let cat = Catalogue::dbn(1).to_bytes();
    /// let (mut table, mut names) = ([0; 16], [0; 33]);
    /// let mut room = Room { cat: &cat, table: &mut table, names: &mut names };
    /// let price = FieldDef { field_id: 9, offset: 40, size: 8, type_id: dbn::DECIMAL, scale: -9, ..FieldDef::default() };
    /// FieldCursor::empty(Holder::Struct).like(&mut room, &price, 0, b"price")?;
    /// assert_eq!(FieldDef::all_from(&table), [FieldDef { offset: 0, ..price }]);
    /// # Ok::<_, tuppenceowl::Refusal>(())
    /// ```
    #[inline]
    pub fn like(
        &mut self,
        room: &mut Room,
        def: &FieldDef,
        def_index: u16,
        name: &[u8],
    ) -> Result<(), Refusal> {
        let like = def.to_bytes();
        call!(self.owl_cursor_like(room; &like, def_index, name.as_ptr(), name.len()))
    }

    /// Struct `k` of a layout. (Refusals 2, 15, 14.)
    ///
    /// ```
    /// use tuppenceowl::{Catalogue, FieldCursor, FieldDef, Holder, Layout, Room, StructLayout, dbn};
    ///
    /// let cat = Catalogue::dbn(1).to_bytes();
    /// let price = FieldDef { field_id: 9, size: 8, type_id: dbn::DECIMAL, scale: -9, ..FieldDef::default() };
    /// let level = StructLayout { size: 8, name: "level".into(), field_defs: vec![price] };
    /// let layout = Layout { records: vec![], structs: vec![level] }.to_block();
    ///
    /// let (mut table, mut names) = ([0; 16 * 128], [0; 33 * 128]);
    /// let mut room = Room { cat: &cat, table: &mut table, names: &mut names };
    /// let mut cursor = FieldCursor::empty(Holder::Record);
    /// cursor.nested(&mut room, &layout, 2, 0, b"best")?;
    /// cursor.nested_array(&mut room, &layout, 3, 0, 10, b"levels")?;
    /// assert_eq!((cursor.count, cursor.cursor), (2, 88));
    /// # Ok::<_, tuppenceowl::Refusal>(())
    /// ```
    #[inline]
    pub fn nested(
        &mut self,
        room: &mut Room,
        layout: &[u8],
        field_id: u16,
        k: u16,
        name: &[u8],
    ) -> Result<(), Refusal> {
        call!(self.owl_cursor_nested(room, layout; field_id, k, name.as_ptr(), name.len()))
    }

    /// An array of struct `k`. (Refusals 2, 15, 14.)
    #[inline]
    pub fn nested_array(
        &mut self,
        room: &mut Room,
        layout: &[u8],
        field_id: u16,
        k: u16,
        count: u16,
        name: &[u8],
    ) -> Result<(), Refusal> {
        call!(self.owl_cursor_nested_array(room, layout; field_id, k, count, name.as_ptr(), name.len()))
    }

    /// Goes to an offset that is not behind it; the gap becomes padding. (Refusal 14.)
    #[inline]
    pub fn at(&mut self, room: &mut Room, offset: usize) -> Result<(), Refusal> {
        call!(self.owl_cursor_at(room; offset))
    }

    /// Aligns to 8 and notes the base; fields placed after it have the extension flag. (Refusal 14.)
    #[inline]
    pub fn finish_base(&mut self, room: &mut Room) -> Result<(), Refusal> {
        call!(self.owl_cursor_finish_base(room;))
    }

    /// Notes the base if need be, aligns to 8, and brings the listed ids to the front in the list's order. The cursor is then the size. (Refusal 14.)
    #[inline]
    pub fn finish(&mut self, room: &mut Room, ids: &[u16]) -> Result<(), Refusal> {
        call!(self.owl_cursor_finish(room; ids.as_ptr(), ids.len()))
    }

    // ---- the state as five numbers

    #[inline]
    fn of([most, count, cursor, base, noted]: State) -> FieldCursor {
        FieldCursor {
            most,
            count,
            cursor,
            base: (noted != 0).then_some(base),
        }
    }

    #[inline]
    fn state(&self) -> State {
        let noted = usize::from(self.base.is_some());
        [
            self.most,
            self.count,
            self.cursor,
            self.base.unwrap_or(0),
            noted,
        ]
    }
}
