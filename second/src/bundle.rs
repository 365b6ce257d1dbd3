//! The model of bundles: contents first, then bodies.

use std::slice::ChunksExact;

use crate::bytes;
use crate::control::{self, Control};

/// The number answered for a bad bundle.
pub const BAD_BUNDLE: u64 = 10;

/// Where the body of a frame stands in its bundle.
#[derive(Debug, PartialEq)]
pub struct Place {
    pub at: u64,
    pub length: u64,
}

/// The places of a bundle's frames, in order.
#[derive(Clone)]
pub struct Frames<'a> {
    lengths: ChunksExact<'a, u8>,
    at: u64,
}

impl Frames<'_> {
    /// The lengths of all these frames together.
    pub fn size(&self) -> u64 {
        self.clone().map(|frame| frame.length).sum()
    }

    /// The place of the control frame, with which every good bundle begins.
    fn control(&self) -> Place {
        self.clone().next().expect("a good bundle has a frame")
    }

    /// Takes the control frame away from the others of its bundle, and answers its bytes.
    pub fn take_control<'a>(&mut self, bundle: &'a [u8]) -> &'a [u8] {
        let Place { at, length } = self.control();
        self.next();
        &bundle[at as usize..(at + length) as usize]
    }
}

impl Iterator for Frames<'_> {
    type Item = Place;

    fn next(&mut self) -> Option<Place> {
        let length = bytes::number(self.lengths.next()?);
        let at = self.at;
        self.at += length;
        Some(Place { at, length })
    }

    fn size_hint(&self) -> (usize, Option<usize>) {
        self.lengths.size_hint()
    }
}

impl ExactSizeIterator for Frames<'_> {}

/// The frames of a bundle; nothing for a bad bundle.
///
/// A bundle is a 2-byte frame count F (1 to 16), then F 4-byte lengths, then the bodies in order without gaps, ending
/// exactly at the end of the bytes.
pub fn frames(bundle: &[u8]) -> Option<Frames<'_>> {
    let count = bytes::number(bundle.get(..2)?) as usize;
    if !(1..=16).contains(&count) {
        return None;
    }
    let bodies_at = 2 + 4 * count;
    let lengths = bundle.get(2..bodies_at)?.chunks_exact(4);
    let frames = Frames { lengths, at: bodies_at as u64 };
    (frames.at + frames.size() == bundle.len() as u64).then_some(frames)
}

/// A frame by numbers: found, at, length; zeros where there is none.
fn numbers(frame: Option<Place>) -> [u64; 3] {
    frame.map_or([0; 3], |place| [1, place.at, place.length])
}

/// The number answered for the frame at `index`, and its place: found, at, length.
///
/// A bad bundle is refused with zeros; behind the last frame there is none, and zeros too.
pub fn frame(bundle: &[u8], index: u32) -> (u64, [u64; 3]) {
    let Some(mut frames) = frames(bundle) else {
        return (BAD_BUNDLE, numbers(None));
    };
    (0, numbers(frames.nth(index as usize)))
}

/// A reader over a lent bundle, which hands out its frames one by one.
pub struct Reader<'a> {
    pub bundle: &'a [u8],
    /// How many frames it has handed out.
    pub position: usize,
}

impl Reader<'_> {
    /// Hands out the next frame, or none behind the last; the number of the refusal for a bad bundle.
    ///
    /// The position moves only where a frame is handed out.
    pub fn hand_out(&mut self) -> Result<Option<Place>, u64> {
        let next = frames(self.bundle).ok_or(BAD_BUNDLE)?.nth(self.position);
        if next.is_some() {
            self.position += 1;
        }
        Ok(next)
    }
}

/// The number answered by a reader at `position`, and what it hands out: found, at, length, its position afterwards.
pub fn handed_out(bundle: &[u8], position: usize) -> (u64, [u64; 4]) {
    let mut reader = Reader { bundle, position };
    let (number, next) = match reader.hand_out() {
        Ok(next) => (0, next),
        Err(number) => (number, None),
    };
    let [found, at, length] = numbers(next);
    (number, [found, at, length, reader.position as u64])
}

/// The number answered for a bundle, and its contents: frame count, place and length of the control frame, size of the
/// message.
pub fn contents(bundle: &[u8]) -> (u64, [u64; 4]) {
    let Some(frames) = frames(bundle) else {
        return (BAD_BUNDLE, [0; 4]);
    };
    let control = frames.control();
    (0, [frames.len() as u64, control.at, control.length, frames.size()])
}

/// Stores these bytes at the start of `out`, and answers what stands behind them.
fn put<'a>(out: &'a mut [u8], bytes: &[u8]) -> &'a mut [u8] {
    let (place, behind) = out.split_at_mut(bytes.len());
    place.copy_from_slice(bytes);
    behind
}

/// The bytes of the bundle of these frames.
fn length_of(frames: &[&[u8]]) -> usize {
    frames.iter().fold(2, |length, frame| length + 4 + frame.len())
}

/// Stores the bundle of these frames at the start of `out`, and says how many bytes it has; 0 where it does not fit.
fn store(mut out: &mut [u8], frames: &[&[u8]]) -> usize {
    let length = length_of(frames);
    if length > out.len() {
        return 0;
    }
    out = put(out, &(frames.len() as u16).to_be_bytes());
    for frame in frames {
        out = put(out, &(frame.len() as u32).to_be_bytes());
    }
    for frame in frames {
        out = put(out, frame);
    }
    length
}

/// The bundle of these frames.
pub fn of_frames(frames: &[&[u8]]) -> Vec<u8> {
    let mut bundle = vec![0; length_of(frames)];
    store(&mut bundle, frames);
    bundle
}

/// Writes the bundle of a control frame and perhaps a body at the start of `out`, and says how many bytes it has.
///
/// Where the type is none of 1 to 5 or the bundle does not fit, 0 bytes are written.
pub fn write(out: &mut [u8], control: &Control, body: Option<&[u8]>) -> usize {
    match (control::frame(control), body) {
        (None, _) => 0,
        (Some(control), None) => store(out, &[&control]),
        (Some(control), Some(body)) => store(out, &[&control, body]),
    }
}

#[cfg(test)]
mod tests {
    use super::*;

    /// K2: the bundle of READY(8).
    const K2: [u8; 14] = [0x00, 0x01, 0x00, 0x00, 0x00, 0x08, 0x46, 0x42, 0x44, 0x50, 0x11, 0x00, 0x00, 0x08];

    const READY_8: Control = Control { message_type: 2, flags: 0, type_data: 8 };

    #[test]
    fn k2_is_read() {
        assert!(frames(&K2).unwrap().eq([Place { at: 6, length: 8 }]));
        assert_eq!(frame(&K2, 0), (0, [1, 6, 8]));
        assert_eq!(frame(&K2, 1), (0, [0, 0, 0]));
        assert_eq!(contents(&K2), (0, [1, 6, 8, 8]));
    }

    #[test]
    fn k2_is_written_and_nothing_behind_it() {
        let mut out = [7; 16];
        assert_eq!((write(&mut out, &READY_8, None), &out[..14], &out[14..]), (14, &K2[..], &[7, 7][..]));
        let mut short = [7; 13];
        assert_eq!((write(&mut short, &READY_8, None), short), (0, [7; 13]));
    }

    #[test]
    fn k11_frame_count_0_is_refused_as_10() {
        assert_eq!(frame(&[0, 0], 0), (10, [0, 0, 0]));
        let mut bundle = K2;
        bundle[1] = 0;
        assert_eq!(frame(&bundle, 0), (10, [0, 0, 0]));
        assert_eq!(contents(&bundle), (10, [0; 4]));
    }

    #[test]
    fn a_body_is_written_and_found_again() {
        let mut out = [7; 21];
        assert_eq!(write(&mut out, &READY_8, Some(&[1, 2])), 20);
        assert!(frames(&out).is_none());
        assert_eq!(frame(&out[..20], 1), (0, [1, 18, 2]));
        assert_eq!(write(&mut [7; 18], &READY_8, Some(&[])), 18);
    }

    #[test]
    fn bundles_have_1_to_16_frames_and_end_exactly() {
        let empty: &[u8] = &[];
        assert_eq!(contents(&of_frames(&[empty; 16])), (0, [16, 66, 0, 0]));
        assert_eq!(contents(&of_frames(&[empty; 17])).0, 10);
        assert_eq!(contents(&K2[..13]).0, 10);
        assert_eq!(contents(&[]).0, 10);
        assert_eq!(frame(&of_frames(&[&[], &[]]), 1), (0, [1, 10, 0]));
    }

    #[test]
    fn a_reader_hands_out_each_frame_once_in_order_and_then_none_for_ever() {
        let bundle = of_frames(&[&[1, 2, 3], &[], &[4], &[5, 6]]);
        let mut reader = Reader { bundle: &bundle, position: 0 };
        for (handed, (at, length)) in [(18, 3), (21, 0), (21, 1), (22, 2)].into_iter().enumerate() {
            assert_eq!((reader.position, reader.hand_out()), (handed, Ok(Some(Place { at, length }))));
        }
        for _ in 0..100 {
            assert_eq!((reader.hand_out(), reader.position), (Ok(None), 4));
        }
    }

    #[test]
    fn a_reader_goes_on_where_its_position_says() {
        let bundle = of_frames(&[&[1, 2, 3], &[], &[4], &[5, 6]]);
        assert_eq!(handed_out(&bundle, 0), (0, [1, 18, 3, 1]));
        assert_eq!(handed_out(&bundle, 3), (0, [1, 22, 2, 4]));
        assert_eq!(handed_out(&bundle, 4), (0, [0, 0, 0, 4]));
        assert_eq!(handed_out(&bundle, 5), (0, [0, 0, 0, 5]));
        assert_eq!(handed_out(&of_frames(&[&b""[..]; 16]), 15), (0, [1, 66, 0, 16]));
    }

    #[test]
    fn a_reader_hands_out_none_of_a_bad_bundle() {
        let bundle = of_frames(&[&[1, 2, 3], &[], &[4]]);
        let mut bad: Vec<Vec<u8>> = (0..bundle.len()).map(|length| bundle[..length].to_vec()).collect();
        bad.extend([[&bundle[..], &[0]].concat(), of_frames(&[&b""[..]; 17]), of_frames(&[])]);
        for bundle in &bad {
            for position in (0..=17).chain([usize::MAX]) {
                let mut reader = Reader { bundle, position };
                for _ in 0..3 {
                    assert_eq!((reader.hand_out(), reader.position), (Err(10), position));
                }
                assert_eq!(handed_out(bundle, position), (10, [0, 0, 0, position as u64]));
            }
        }
    }

    /// Neither the position nor four times the position is taken for a small number.
    #[test]
    fn a_reader_far_behind_the_last_frame_stays_there() {
        let bundle = of_frames(&[&b"a"[..]; 16]);
        let quarter = usize::MAX / 4 + 1;
        for start in [1 << 8, 1 << 16, quarter, 2 * quarter, 3 * quarter, usize::MAX - 16] {
            for position in start..=start + 16 {
                assert_eq!(handed_out(&bundle, position), (0, [0, 0, 0, position as u64]));
            }
        }
    }

    #[test]
    fn lengths_do_not_wrap_around() {
        let bundle = [0, 2, 0xFF, 0xFF, 0xFF, 0xFF, 0, 0, 0, 2, 5];
        assert_eq!(contents(&bundle).0, 10);
    }
}
