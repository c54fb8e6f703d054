//! Refusals, and the bytes of fields and catalogues.
mod generator;

use generator::Generator;
use tuppenceowl::{limits::*, *};

const ROUNDS: u64 = 400;

// ---- refusals

#[test]
fn a_refusal_has_its_number_and_words_of_its_own() {
    let numbers: Vec<u8> = Refusal::ALL.iter().map(|r| r.number()).collect();
    assert_eq!(numbers, (1..=16).collect::<Vec<u8>>());
    let mut words: Vec<String> = Refusal::ALL.iter().map(|r| r.to_string()).collect();
    words.sort();
    words.dedup();
    assert_eq!(words.len(), 16);
    assert_eq!(
        (Refusal::of_number(0), Refusal::of_number(254)),
        (None, None)
    );
}

// ---- fields

#[test]
fn any_field_is_read_back() {
    let mut g = Generator::new(1);
    for _ in 0..ROUNDS {
        let mut bytes: [u8; FIELD] = g.bytes(FIELD).try_into().expect("16 bytes");
        if g.one_in(2) {
            bytes[11..].fill(0);
        }
        let def = FieldDef::from_bytes(bytes);
        assert_eq!(def.to_bytes(), bytes);
        let told = field_of(&bytes, 0);
        let right = (def.reserved == [0; 5]).then_some(Some(def));
        assert_eq!(told, right.ok_or(Refusal::ReservedByte));
    }
}

#[test]
fn the_library_reads_a_field_as_it_is_packed() {
    let def = FieldDef {
        field_id: 0x0102,
        offset: 0x0304,
        size: 0x0506,
        type_id: 7,
        flags: 8,
        def_index: 0x090A,
        scale: -11,
        reserved: [0; 5],
    };
    let table = [FieldDef::default().to_bytes(), def.to_bytes()].concat();
    assert_eq!(field_of(&table, 1), Ok(Some(def)));
    assert_eq!(FieldDef::all_from(&table), [FieldDef::default(), def]);
}

// ---- catalogues

#[test]
fn a_catalogue_of_dbn_is_valid_and_read_back() {
    for header in [0, 1, 0x1234, u16::MAX] {
        let catalogue = Catalogue::dbn(header);
        assert_eq!(Catalogue::from_bytes(&catalogue.to_bytes()), Ok(catalogue));
    }
}

#[test]
fn a_catalogue_that_is_not_valid_is_refused_and_not_read() {
    let refused = |change: fn(&mut Catalogue)| {
        let mut catalogue = Catalogue::dbn(1);
        change(&mut catalogue);
        let bytes = catalogue.to_bytes();
        assert_eq!(check_catalogue(&bytes), Err(Refusal::BadCatalogue));
        assert_eq!(Catalogue::from_bytes(&bytes), Err(Refusal::BadCatalogue));
    };
    refused(|c| c.array_flag = 3);
    refused(|c| c.extension_flag = c.array_flag);
    refused(|c| c.kinds[200].width = 3);
    refused(|c| c.kinds[200].width = 15);
    refused(|c| c.kinds[200].width = 16);
    refused(|c| c.kinds[200].width = 255);
    refused(|c| c.kinds[200].class = Class::Signed);
    refused(|c| c.kinds[200].class = Class::String);
    refused(|c| c.kinds[usize::from(dbn::U64)].width = 4);
    refused(|c| c.kinds[usize::from(dbn::PADDING)] = Kind::default());
    let short = &Catalogue::dbn(1).to_bytes()[..CATALOGUE - 1];
    assert_eq!(Catalogue::from_bytes(short), Err(Refusal::BadCatalogue));
}
