//! The words for numbers: include/words.txt, which tests/header/table.py holds against the header for C. The numbers are those of include/cfu.h.
use cfu_updater::words::{advice, name, sentence, Kind};

#[test]
fn a_number_has_its_name_and_its_sentence_by_its_kind() {
    assert_eq!((name(Kind::Call, 0x4207), name(Kind::Ending, 0x4801)), ("B7", "H1"));
    assert_eq!(sentence(Kind::Call, 0x4206), "an earlier entry offers the same component");
    assert_eq!((name(Kind::Call, 0), name(Kind::Ending, 0), name(Kind::OfferStatus, 0)), ("SERVED", "RUNNING", "SKIP"));
    assert_eq!((name(Kind::Reason, 2), sentence(Kind::Reason, 2)), ("SWAP_PENDING", "the component awaits a reset"));
    assert_eq!((name(Kind::ContentStatus, 5), sentence(Kind::ContentStatus, 5)), ("ERROR_CRC", "the image's CRC is wrong"));
    assert_eq!((sentence(Kind::Information, 2), sentence(Kind::Extended, 1)), ("end offer list", "notify on ready"));
}

#[test]
fn limits_stand_in_sentences_as_the_header_has_them() {
    assert_eq!(sentence(Kind::Call, 0x4201), "a bundle has 8 to 65,536 bytes");
    assert_eq!(sentence(Kind::Call, 0x4203), "a bundle has 1 to 7 offers");
}

#[test]
fn the_writers_rows_have_advice_and_the_others_have_none() {
    for number in 0..0x1_0000 {
        assert_eq!(advice(Kind::Call, number).is_empty(), !(0x5701..=0x5708).contains(&number), "{number:#x}");
    }
}

#[test]
fn other_numbers_are_unknown() {
    assert_eq!((name(Kind::Call, 0x4209), sentence(Kind::Call, 0x4209)), ("unknown", "unknown"));
    assert_eq!((name(Kind::Reason, 0x4201), sentence(Kind::OfferStatus, 5)), ("unknown", "unknown"));
}
