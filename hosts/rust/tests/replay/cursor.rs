//! The words of the field cursor, whose state, table and names are kept from line to line.
use super::line::{Line, ROOM, octets, part, told};
use tuppenceowl::{limits::*, *};

pub struct Built {
    cursor: FieldCursor,
    table: Vec<u8>,
    names: Vec<u8>,
}

impl Default for Built {
    fn default() -> Self {
        // as the case runner starts: a cursor that may have no fields
        let cursor = FieldCursor {
            most: 0,
            count: 0,
            cursor: 0,
            base: None,
        };
        Built {
            cursor,
            table: vec![0; FIELD * MAX_FIELDS],
            names: vec![0; NAME * MAX_FIELDS],
        }
    }
}

/// Count, cursor, and the base or a dash.
fn state_text(c: &FieldCursor) -> String {
    let base = c.base.map_or("-".into(), |base| base.to_string());
    format!("{} {} {base}", c.count, c.cursor)
}

impl Built {
    pub fn begin(&mut self, line: &Line) -> Option<String> {
        let holder = match line.text(1) {
            b"record" => Holder::Record,
            b"struct" => Holder::Struct,
            _ => return None,
        };
        self.cursor = FieldCursor::empty(holder);
        Some("ok".into())
    }

    /// The bytes of the first k fields and names, placed or not.
    pub fn show(&self, line: &Line) -> Option<String> {
        let k = line.number(1).filter(|&k| k <= MAX_FIELDS)?;
        let table = octets(part(&self.table, 0, FIELD * k));
        let names = octets(part(&self.names, 0, NAME * k));
        Some(format!("{} {table} {names}", state_text(&self.cursor)))
    }

    pub fn place(&mut self, line: &Line, cat: &[u8], layout: &[u8]) -> Option<String> {
        let mut row = line.of(3)?.hex(1, FIELD)?;
        row.resize(FIELD, 0);
        let name = line.hex(2, ROOM)?;
        let f = FieldDef::all_from(&row)[0];
        let (id, k) = (f.field_id, f.def_index);
        Some(self.called(cat, |c, room| match line.word() {
            b"scalar" => c.scalar(room, id, f.type_id, f.size, f.flags, k, &name),
            b"string" => c.string(room, id, f.type_id, f.size, f.flags, &name),
            b"like" => c.like(room, &f, k, &name),
            b"nested" => c.nested(room, layout, id, k, &name),
            _ => c.nested_array(room, layout, id, k, f.size, &name),
        }))
    }

    pub fn go_to(&mut self, line: &Line, cat: &[u8]) -> Option<String> {
        let offset = line.of(2)?.number(1)?;
        Some(self.called(cat, |c, room| c.at(room, offset)))
    }

    pub fn finish_base(&mut self, line: &Line, cat: &[u8]) -> Option<String> {
        line.of(1)?;
        Some(self.called(cat, FieldCursor::finish_base))
    }

    pub fn finish(&mut self, line: &Line, cat: &[u8]) -> Option<String> {
        let ids = line.of(2)?.ids(1)?;
        Some(self.called(cat, |c, room| c.finish(room, &ids)))
    }

    fn called(
        &mut self,
        cat: &[u8],
        call: impl FnOnce(&mut FieldCursor, &mut Room) -> Result<(), Refusal>,
    ) -> String {
        let mut room = Room {
            cat,
            table: &mut self.table,
            names: &mut self.names,
        };
        let answer = call(&mut self.cursor, &mut room);
        told(answer, |()| state_text(&self.cursor))
    }
}
