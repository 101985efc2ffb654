//! The image: what is written is read back, and a picture is the image that it was made from.

use harness::draw::states;
use harness::image::{as_text, at, decode, encode, name, picture};
use harness::image::{HAD, LAST, LENGTH, NUMBERS, PLACE, READY, ROW, SAVED};
use harness::rng::Rng;

#[test]
fn what_is_written_is_read_back() {
    let mut rng = Rng::new(1);
    for _ in 0..2000 {
        let state = states::wild(&mut rng);
        assert_eq!(decode(&encode(&state)), state);
    }
}

#[test]
fn a_word_lies_in_its_half() {
    let image = picture(&[1, 2, 3], [3, 0, 0, 0, 0], &[]);
    assert_eq!(image[..2], [1 | 2 << 32, 3]);
    assert_eq!(image.words()[..4], [1, 2, 3, 0]);
}

#[test]
fn a_number_too_large_is_read_by_its_low_half() {
    let mut rng = Rng::new(2);
    for _ in 0..2000 {
        let image = encode(&states::wild(&mut rng));
        let mut wide = image;
        states::widen(&mut rng, &mut wide);
        assert!(states::is_wide(&wide));
        assert_eq!(decode(&wide), decode(&image));
        assert_eq!(encode(&decode(&wide)), image);
    }
}

#[test]
fn every_number_has_a_name() {
    let mut names: Vec<String> = (0..NUMBERS).map(name).collect();
    assert_eq!(names[0], "words 0 and 1");
    assert_eq!(names[LENGTH], "length");
    assert_eq!(names[READY], "ready");
    assert_eq!(names[HAD], "had");
    assert_eq!(names[at(3, PLACE)], "row 3, place");
    assert_eq!(names[at(15, SAVED + 3)], "row 15, saved 3");
    names.sort();
    names.dedup();
    assert_eq!(names.len(), NUMBERS);
}

#[test]
fn a_picture_is_its_image() {
    let rows = [(0, [1; ROW]), (15, [2, 3, 4, 5, 6, 7, 8, 9, u64::MAX])];
    let image = picture(&[1, 0, 2, 2, 2, 0], [6, 7, 8, 1 << 32 | 1, 9], &rows);
    assert_eq!(image[LENGTH..LENGTH + 5], [6, 7, 8, 1 << 32 | 1, 9]);
    assert_eq!(image[at(15, LAST)], u64::MAX);
    let text: String = as_text(&image).split_whitespace().collect();
    assert_eq!(
        text,
        "picture(&[1,0,2,2,2],[6,7,8,4294967297,9],\
         &[(0,[1,1,1,1,1,1,1,1,1]),(15,[2,3,4,5,6,7,8,9,18446744073709551615]),],)"
    );
}
