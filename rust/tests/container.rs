//! The container: what is written is read again, and each way in which a file is bad has its message.

mod common;

use common::{colour, small};
use tinladle::container::{HEAD_BYTES, StoredPicture};

fn bytes(stored: &StoredPicture) -> Vec<u8> {
    let mut bytes = Vec::new();
    stored.write(&mut bytes).unwrap();
    bytes
}

fn read(bytes: &[u8]) -> Result<StoredPicture, String> {
    StoredPicture::read(&mut &bytes[..], bytes.len() as u64).map_err(|error| error.to_string())
}

/// The file of `small`, with a word of its head changed.
fn with_word(number: usize, word: u32) -> Vec<u8> {
    let mut bytes = bytes(&StoredPicture::new(small()));
    bytes[4 * number..4 * number + 4].copy_from_slice(&word.to_le_bytes());
    bytes
}

#[test]
fn the_layout_is_the_documented_one() {
    let mut picture = colour();
    picture.settings.cb_qp_offset = -3;
    picture.settings.pcm_loop_filter_disabled = true;
    picture.planes.y[0] = 0x0102;
    picture.tile_rows = vec![0x0304];
    let bytes = bytes(&StoredPicture::new(picture));
    let words: Vec<i32> = bytes[..HEAD_BYTES].chunks(4).map(|b| i32::from_le_bytes(b.try_into().unwrap())).collect();
    assert_eq!(words[0], 0x5348_4C54);
    // Width, height, format, depths, log2 CTB, offsets, switch.
    assert_eq!(words[1..10], [16, 8, 1, 8, 8, 4, -3, 0, 1]);
    // Y, Cb, Cr, the outputs, cell and slice bytes, tile columns and rows.
    assert_eq!(words[10..], [128, 32, 32, 128, 32, 32, 64, 4, 1, 1]);
    assert_eq!(bytes.len(), 80 + 2 * (128 + 32 + 32) + 64 + 4 + 2 + 2);
    assert_eq!(bytes[80..82], [2, 1], "the first luma sample, low byte first");
    assert_eq!(bytes[bytes.len() - 8..], [0, 6, 6, 1, 0, 0, 4, 3], "the slice, the tile column, the tile row");
}

#[test]
fn what_is_written_is_read_again() {
    let mut odd = colour();
    odd.settings.cr_qp_offset = i32::MIN;
    odd.settings.width = u32::MAX;
    odd.planes.cb.clear();
    odd.slices = vec![9; 7];
    odd.tile_columns = vec![65535; 30];
    for picture in [small(), colour(), odd] {
        let mut stored = StoredPicture::new(picture);
        stored.output_lengths[2] = 7;
        assert_eq!(read(&bytes(&stored)).unwrap(), stored);
    }
}

#[test]
fn pictures_one_after_the_other_are_split() {
    let (one, other) = (StoredPicture::new(small()), StoredPicture::new(colour()));
    let both = [bytes(&one), bytes(&other)].concat();
    let (first, rest) = StoredPicture::split_first(&both).unwrap();
    assert_eq!((first, rest), (one, &bytes(&other)[..]));
}

#[test]
fn no_head() {
    assert_eq!(read(&[]).unwrap_err(), "too short: 0 bytes, and the head has 80");
    let whole = bytes(&StoredPicture::new(small()));
    assert_eq!(read(&whole[..79]).unwrap_err(), "too short: 79 bytes, and the head has 80");
}

#[test]
fn wrong_mark() {
    assert_eq!(read(&with_word(0, 0x1234)).unwrap_err(), "no picture: it begins with 0x00001234, not 0x53484c54");
}

#[test]
fn pcm_switch() {
    assert_eq!(read(&with_word(9, 2)).unwrap_err(), "the PCM switch is 2, not 0 or 1");
}

#[test]
fn one_byte_short_and_one_byte_long() {
    // 80 of the head, 128 of luma, 32 of cells, 4 of slices, 2 and 2 of tiles.
    let mut whole = bytes(&StoredPicture::new(small()));
    assert_eq!(whole.len(), 248);
    assert_eq!(read(&whole[..247]).unwrap_err(), "too short: 247 bytes, and its head asks for 248");
    whole.push(0);
    assert_eq!(read(&whole).unwrap_err(), "too long: 1 byte after the picture");
    whole.push(0);
    assert_eq!(read(&whole).unwrap_err(), "too long: 2 bytes after the picture");
    assert_eq!(read(&whole[..1]).unwrap_err(), "too short: 1 byte, and the head has 80");
}

#[test]
fn lengths_too_large_allocate_nothing() {
    let most = u64::from(u32::MAX);
    // Each list in turn: two bytes for a sample or a tile start, one for cells and slices.
    for (word, own, size) in [(10, 128, 2), (11, 0, 2), (12, 0, 2), (16, 32, 1), (17, 4, 1), (18, 2, 2), (19, 2, 2)] {
        let needed = 248 - own + size * most;
        let wanted = format!("too short: 248 bytes, and its head asks for {needed}");
        assert_eq!(read(&with_word(word, u32::MAX)).unwrap_err(), wanted, "word {word}");
    }
    for (word, plane) in [(13, "Y"), (14, "Cb"), (15, "Cr")] {
        let wanted = format!("the head's output {plane} of {most} samples is larger than the file of 248 bytes");
        assert_eq!(read(&with_word(word, u32::MAX)).unwrap_err(), wanted);
    }
    // An output length that is wrong and no larger than the file is a matter for the stage.
    assert_eq!(read(&with_word(13, 65)).unwrap().output_lengths, [65, 0, 0]);
}

#[test]
fn no_list_is_longer_than_the_largest_plane() {
    let most = 8192 * 8192;
    let says = |word: usize, length: u32| {
        let bytes = with_word(word, length);
        // As if the file were as large as its head says; nothing past the head is read.
        StoredPicture::read(&mut &bytes[..HEAD_BYTES], 1 << 40).unwrap_err().to_string()
    };
    let wanted = format!("too large: cell bytes of {}, and no list of a picture is longer than {most}", most + 1);
    assert_eq!(says(16, most + 1), wanted);
    assert!(says(15, most + 1).starts_with("too large: output Cr of 67108865, "));
    assert!(says(17, most).starts_with("cannot be read: "), "the largest length is let through");
}

#[test]
fn a_file_that_shrinks_while_it_is_read() {
    let whole = bytes(&StoredPicture::new(small()));
    let error = StoredPicture::read(&mut &whole[..200], 248).unwrap_err().to_string();
    assert!(error.starts_with("cannot be read: "), "{error}");
}
