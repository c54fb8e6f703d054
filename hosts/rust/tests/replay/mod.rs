//! A line of cases answered by the crate's calls, in the words of the case runner (docs/CASES.md of the repository).
mod cursor;
mod layouts;
mod line;
mod plans;

use line::Line;

/// How many words there are.
pub const WORDS: usize = 31;

/// The catalogue, the layout, the field cursor and the plans that are kept from line to line.
pub struct Replay {
    cat: Vec<u8>,
    layout: Vec<u8>,
    built: cursor::Built,
    slots: Vec<u8>,
}

impl Default for Replay {
    fn default() -> Self {
        Replay {
            cat: vec![],
            layout: vec![],
            built: cursor::Built::default(),
            slots: vec![0; plans::SLOTS],
        }
    }
}

impl Replay {
    /// A line that does not give its word what it takes is answered by a question mark, a word that is none by a panic.
    pub fn answer(&mut self, line: &[u8]) -> String {
        let line = Line::new(line);
        self.asked(&line).unwrap_or_else(|| "?".into())
    }

    fn asked(&mut self, line: &Line) -> Option<String> {
        match line.word() {
            b"catalogue" => self.keep_catalogue(line),
            b"layout" => self.keep_layout(line),
            b"size" => self.size(line),
            b"window" => layouts::window_of(line),
            b"field" => layouts::field(line),
            b"sum" => layouts::sum_of(line),
            b"hash" => self.hash(line),
            b"visits" => self.visits(line),
            b"boot" => self.boot(line),
            b"verdict" => self.verdict(line),
            b"verdict_of" => self.verdict_of(line),
            b"by_id" => self.by_id(line),
            b"by_name" => self.by_name(line),
            b"begin" => self.built.begin(line),
            b"built" => self.built.show(line),
            b"scalar" | b"string" | b"like" | b"nested" | b"nested_array" => {
                self.built.place(line, &self.cat, &self.layout)
            }
            b"at" => self.built.go_to(line, &self.cat),
            b"finish_base" => self.built.finish_base(line, &self.cat),
            b"finish" => self.built.finish(line, &self.cat),
            b"select" => self.select(line),
            b"plan" => self.plan(line),
            b"put" => self.put(line),
            b"slots" => self.sum_of_slots(line),
            b"apply" => self.apply(line),
            b"upgrade" => self.upgrade(line),
            b"write_plan" => plans::write(line),
            b"read_plan" => plans::read(line),
            other => panic!("no word: {}", String::from_utf8_lossy(other)),
        }
    }
}
