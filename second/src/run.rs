//! A run as a case carries it: steps one behind the other, each a length in
//! two bytes and so many bytes of a frame, or a mark that gives up.

/// The length that stands for giving the open event up; no bytes follow it.
const GIVE_UP: u16 = 0xFFFF;
pub const MAX_STEPS: usize = 24;

#[derive(Clone, PartialEq, Eq, Debug)]
pub enum Step {
    Frame(Vec<u8>),
    GiveUp,
}

impl Step {
    /// How many bytes the step takes in a payload.
    pub fn length(&self) -> usize {
        match self {
            Step::Frame(bytes) => 2 + bytes.len(),
            Step::GiveUp => 2,
        }
    }
}

/// The steps of a payload; none where it ends inside one or has too many.
pub fn steps(mut payload: &[u8]) -> Option<Vec<Step>> {
    let mut steps = Vec::new();
    while let [low, high, rest @ ..] = payload {
        let length = u16::from_le_bytes([*low, *high]);
        if length == GIVE_UP {
            steps.push(Step::GiveUp);
            payload = rest;
        } else {
            let (bytes, rest) = rest.split_at_checked(length as usize)?;
            steps.push(Step::Frame(bytes.to_vec()));
            payload = rest;
        }
    }
    (payload.is_empty() && steps.len() <= MAX_STEPS).then_some(steps)
}

/// The payload of the steps.
pub fn payload(steps: &[Step]) -> Vec<u8> {
    let mut payload = Vec::new();
    for step in steps {
        match step {
            Step::GiveUp => payload.extend(GIVE_UP.to_le_bytes()),
            Step::Frame(bytes) => {
                payload.extend((bytes.len() as u16).to_le_bytes());
                payload.extend(bytes);
            }
        }
    }
    payload
}

#[cfg(test)]
mod tests {
    use super::*;

    #[test]
    fn steps_read_back() {
        let bytes = [2, 0, 0xAA, 0xBB, 0xFF, 0xFF, 0, 0, 1, 0, 0xFF];
        let read = steps(&bytes).unwrap();
        let frames = [vec![0xAA, 0xBB], vec![], vec![0xFF]].map(Step::Frame);
        let [first, second, third] = frames;
        assert_eq!(read, [first, Step::GiveUp, second, third]);
        assert_eq!(payload(&read), bytes);
        assert_eq!(steps(&[]), Some(vec![]));
    }

    #[test]
    fn what_is_no_run() {
        for bytes in [&[0][..], &[1, 0], &[2, 0, 1], &[0xFF, 0xFF, 0xFF], &[0xFE, 0xFF, 0]] {
            assert_eq!(steps(bytes), None, "{bytes:?}");
        }
        assert_eq!(steps(&[0; 48]).map(|steps| steps.len()), Some(24));
        assert_eq!(steps(&[0; 50]), None);
        assert_eq!(steps(&[0xFF; 48]).map(|steps| steps.len()), Some(24));
        assert_eq!(steps(&[0xFF; 50]), None);
    }
}
