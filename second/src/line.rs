//! The model of the program that reads one bundle and writes one line for its control frame.

use crate::bundle;
use crate::control;

/// The most bytes of input that are read as a bundle.
pub const MOST_INPUT: usize = 65_536;

/// The whole output for this input: one line and its newline.
pub fn line(input: &[u8]) -> String {
    if input.len() > MOST_INPUT {
        return "too long\n".to_string();
    }
    match line_of_bundle(input) {
        Ok(line) => line,
        Err(refusal) => format!("refused {refusal}\n"),
    }
}

/// The line for a bundle, or the first of 10, 11, 12, 13 that applies.
fn line_of_bundle(input: &[u8]) -> Result<String, u64> {
    let mut frames = bundle::frames(input).ok_or(bundle::BAD_BUNDLE)?;
    let control = control::read(frames.take_control(input))?;
    let name = control::type_name(control.message_type).expect("a type that was read has a name");
    let (flags, type_data, data_frames) = (control.flags, control.type_data, frames.len());
    Ok(format!("{name} v1 flags={flags} data={type_data} frames={data_frames}\n"))
}

/// `room` after the line for this input is written at its start, and the line's length.
pub fn write(room: &[u8], input: &[u8]) -> (u64, Vec<u8>) {
    let line = line(input);
    (line.len() as u64, [line.as_bytes(), &room[line.len()..]].concat())
}

#[cfg(test)]
mod tests {
    use super::*;

    fn bundle_of(control_byte: u8, flags: u8, bodies: &[&[u8]]) -> Vec<u8> {
        let control = [0x46, 0x42, 0x44, 0x50, control_byte, flags, 0xFF, 0xFE];
        bundle::of_frames(&[&[&control[..]], bodies].concat())
    }

    #[test]
    fn k2_is_ready_8() {
        let k2 = [0x00, 0x01, 0x00, 0x00, 0x00, 0x08, 0x46, 0x42, 0x44, 0x50, 0x11, 0x00, 0x00, 0x08];
        assert_eq!(line(&k2), "READY v1 flags=0 data=8 frames=0\n");
        assert_eq!(write(&[7; 64], &k2).1[33..], [7; 31]);
    }

    #[test]
    fn k11_frame_count_0_is_refused_as_10() {
        assert_eq!(line(&[0, 0]), "refused 10\n");
    }

    #[test]
    fn every_type_has_its_name_and_flags_are_never_tested() {
        for (message_type, name) in ["OPEN", "READY", "NOOP", "DATA", "CLOSE"].iter().enumerate() {
            let bundle = bundle_of(8 * (message_type as u8 + 1) + 1, 255, &[&[], &[1]]);
            assert_eq!(line(&bundle), format!("{name} v1 flags=255 data=65534 frames=2\n"));
        }
    }

    #[test]
    fn refusals_give_their_number() {
        assert_eq!(line(&[]), "refused 10\n");
        assert_eq!(line(&bundle::of_frames(&[b"FBDP"])), "refused 11\n");
        assert_eq!(line(&bundle_of(0x12, 0, &[])), "refused 12\n");
        assert_eq!(line(&bundle_of(0x31, 0, &[])), "refused 13\n");
    }

    #[test]
    fn the_longest_input_is_65536_bytes() {
        let body = vec![0; 65_537 - 18];
        assert_eq!(line(&bundle_of(0x21, 1, &[&body[1..]])), "DATA v1 flags=1 data=65534 frames=1\n");
        assert_eq!(line(&bundle_of(0x21, 1, &[&body])), "too long\n");
        assert_eq!(line(&[0; 65_537]), "too long\n");
    }
}
