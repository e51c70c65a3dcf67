//! A case: what a call is given. It is bytes and lengths alone, so that every case can be shown, made smaller and run again.
use std::fmt;

/// What stands in an input, for making it smaller.
#[derive(Clone, Copy, Debug, PartialEq, Eq)]
pub enum Form {
    Plain,
    Sheet,
    Bundle,
}

#[derive(Clone, Debug, PartialEq, Eq)]
pub struct Input {
    pub name: &'static str,
    pub form: Form,
    pub bytes: Vec<u8>,
}

/// A buffer that the call writes: its length.
#[derive(Clone, Debug, PartialEq, Eq)]
pub struct Room {
    pub name: &'static str,
    pub len: usize,
}

#[derive(Clone, Debug, Default, PartialEq, Eq)]
pub struct Case {
    pub inputs: Vec<Input>,
    pub rooms: Vec<Room>,
}

impl Case {
    pub fn input(mut self, name: &'static str, form: Form, bytes: Vec<u8>) -> Case {
        self.inputs.push(Input { name, form, bytes });
        self
    }

    pub fn room(mut self, name: &'static str, len: usize) -> Case {
        self.rooms.push(Room { name, len });
        self
    }

    pub fn bytes(&self, i: usize) -> &[u8] {
        &self.inputs[i].bytes
    }

    pub fn len(&self, i: usize) -> usize {
        self.rooms[i].len
    }

    /// The same inputs and rooms with the values of words like `sheet=00` and `out=3`; what is not named stays.
    pub fn with(mut self, words: &[String]) -> Result<Case, String> {
        for word in words {
            let (name, value) = word.split_once('=').ok_or_else(|| format!("{word}: NAME=VALUE is wanted"))?;
            if let Some(input) = self.inputs.iter_mut().find(|input| input.name == name) {
                input.bytes = unhex(value).ok_or_else(|| format!("{word}: not hexadecimal"))?;
            } else if let Some(room) = self.rooms.iter_mut().find(|room| room.name == name) {
                room.len = value.parse().map_err(|_| format!("{word}: not a number"))?;
            } else {
                return Err(format!("{word}: no input or buffer of that name"));
            }
        }
        Ok(self)
    }
}

/// Words that `with` reads.
impl fmt::Display for Case {
    fn fmt(&self, f: &mut fmt::Formatter) -> fmt::Result {
        let inputs = self.inputs.iter().map(|input| format!("{}={}", input.name, hex(&input.bytes)));
        let rooms = self.rooms.iter().map(|room| format!("{}={}", room.name, room.len));
        f.write_str(&inputs.chain(rooms).collect::<Vec<_>>().join(" "))
    }
}

pub fn hex(bytes: &[u8]) -> String {
    bytes.iter().map(|b| format!("{b:02x}")).collect()
}

fn unhex(text: &str) -> Option<Vec<u8>> {
    if !text.len().is_multiple_of(2) || !text.is_ascii() {
        return None;
    }
    (0..text.len()).step_by(2).map(|i| u8::from_str_radix(&text[i..i + 2], 16).ok()).collect()
}

#[cfg(test)]
mod tests {
    use super::*;

    #[test]
    fn shown_and_read_back() {
        let case = Case::default().input("sheet", Form::Sheet, vec![0, 0xAB]).room("out", 3);
        assert_eq!(case.to_string(), "sheet=00ab out=3");
        let words: Vec<String> = ["sheet=", "out=12"].map(String::from).into();
        assert_eq!(case.clone().with(&words).unwrap().to_string(), "sheet= out=12");
        for bad in ["sheet", "sheet=0", "sheet=zz", "out=x", "n=1"] {
            assert!(case.clone().with(&[bad.to_string()]).is_err(), "{bad}");
        }
    }
}
