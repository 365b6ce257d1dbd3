//! The model of the control frame, exactly 8 bytes: signature, control byte, flags, type-data.

/// The bytes of a control frame.
pub const CONTROL_FRAME: usize = 8;

pub const SIGNATURE: [u8; 4] = [0x46, 0x42, 0x44, 0x50];
pub const VERSION: u8 = 1;

/// The numbers answered for a refused control frame.
pub const NO_CONTROL_FRAME: u64 = 11;
pub const WRONG_VERSION: u64 = 12;
pub const WRONG_TYPE: u64 = 13;

/// What a control frame says.
#[derive(Debug, PartialEq)]
pub struct Control {
    pub message_type: u8,
    pub flags: u8,
    pub type_data: u16,
}

/// The name of a message type; nothing for 0 and for 6 and above.
pub fn type_name(message_type: u8) -> Option<&'static str> {
    match message_type {
        1 => Some("OPEN"),
        2 => Some("READY"),
        3 => Some("NOOP"),
        4 => Some("DATA"),
        5 => Some("CLOSE"),
        _ => None,
    }
}

/// What a control frame says, or the first of 11, 12, 13 that applies.
pub fn read(frame: &[u8]) -> Result<Control, u64> {
    if frame.len() != CONTROL_FRAME || frame[..4] != SIGNATURE {
        return Err(NO_CONTROL_FRAME);
    }
    if frame[4] % 8 != VERSION {
        return Err(WRONG_VERSION);
    }
    let message_type = message_type(frame);
    if type_name(message_type).is_none() {
        return Err(WRONG_TYPE);
    }
    Ok(Control { message_type, flags: frame[5], type_data: u16::from_be_bytes([frame[6], frame[7]]) })
}

/// The type in the control byte of a frame that passes 11, whatever version stands beside it.
pub fn message_type(frame: &[u8]) -> u8 {
    frame[4] / 8
}

/// The number answered for a control frame, and its type, flags and type-data; zeros where it is refused.
pub fn heard(frame: &[u8]) -> (u64, [u64; 3]) {
    match read(frame) {
        Ok(control) => (0, [control.message_type.into(), control.flags.into(), control.type_data.into()]),
        Err(refusal) => (refusal, [0, 0, 0]),
    }
}

/// The control frame that says this; nothing where the type is none of 1 to 5.
pub fn frame(control: &Control) -> Option<[u8; CONTROL_FRAME]> {
    type_name(control.message_type)?;
    let [a, b, c, d] = SIGNATURE;
    let [high, low] = control.type_data.to_be_bytes();
    Some([a, b, c, d, 8 * control.message_type + VERSION, control.flags, high, low])
}

#[cfg(test)]
mod tests {
    use super::*;

    const K1: [u8; 8] = [0x46, 0x42, 0x44, 0x50, 0x11, 0x00, 0x00, 0x08];

    #[test]
    fn k1_is_ready_8() {
        let ready = Control { message_type: 2, flags: 0, type_data: 8 };
        assert_eq!(frame(&ready), Some(K1));
        assert_eq!(read(&K1), Ok(ready));
    }

    #[test]
    fn k3_reply_is_the_control_frame_with_flags_2_for_1() {
        let asked = [0x46, 0x42, 0x44, 0x50, 0x19, 0x01, 0x12, 0x34];
        let heard = read(&asked).unwrap();
        assert_eq!(heard, Control { message_type: 3, flags: 1, type_data: 0x1234 });
        let reply = Control { flags: 2, ..heard };
        assert_eq!(frame(&reply), Some([0x46, 0x42, 0x44, 0x50, 0x19, 0x02, 0x12, 0x34]));
    }

    #[test]
    fn the_first_refusal_that_applies_is_given() {
        assert_eq!(heard(&K1[..7]), (11, [0, 0, 0]));
        assert_eq!(heard(&[0x46, 0x42, 0x44, 0x51, 0, 0, 0, 0]).0, 11);
        assert_eq!(heard(&[0x46, 0x42, 0x44, 0x50, 0, 0, 0, 0]).0, 12);
        assert_eq!(heard(&[0x46, 0x42, 0x44, 0x50, 1, 0, 0, 0]).0, 13);
        assert_eq!(heard(&[0x46, 0x42, 0x44, 0x50, 8 * 6 + 1, 0, 0, 0]).0, 13);
        assert_eq!(heard(&[0x46, 0x42, 0x44, 0x50, 8 * 5 + 1, 255, 1, 0]), (0, [5, 255, 256]));
    }
}
