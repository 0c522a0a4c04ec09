//! Document 02's run sheet (P13), read and written as the paper says it, bit by bit, with nothing of the library.

use crate::cards::paper::Size;

/// A frame brings its words, row after row, whatever a station thinks of its size. A switch has a kind and a position.
#[derive(Clone, PartialEq, Debug)]
pub enum Event {
    Frame(Size, Vec<u32>),
    Reset,
    Switch(u8, bool),
    Step,
    Ask(u8, bool),
    Commit,
}

/// A field of a sheet: the event count, an event's number, and what an event adds to it.
#[derive(Clone, Copy, PartialEq, Debug)]
pub enum Field {
    Count,
    Number,
    Width,
    Height,
    Word,
    Kind,
    Position,
}

impl Field {
    /// How many bits it has.
    pub fn bits(self) -> usize {
        match self {
            Field::Count => 16,
            Field::Number => 3,
            Field::Width | Field::Height => 11,
            Field::Word => 24,
            Field::Kind => 4,
            Field::Position => 1,
        }
    }
}

/// The most events of a sheet, and the longest side that one can name.
pub const MOST: usize = (1 << 16) - 1;
pub const LONGEST: usize = (1 << 11) - 1;

/// Why a sheet is bad.
#[derive(Clone, Copy, PartialEq, Debug)]
pub enum Fault {
    /// The bits of a field run past the end.
    Cut(Field),
    /// An event has this number.
    Number(u32),
    /// A bit is set behind the last event, in its byte.
    Padding,
    /// Another byte follows.
    LeftOver,
}

/// What stands on a sheet: its events, up to the first fault if there is one.
pub struct Read {
    pub events: Vec<Event>,
    pub fault: Option<Fault>,
}

pub fn read(sheet: &[u8]) -> Read {
    let mut bits = Bits { sheet, at: 0 };
    let mut events = Vec::new();
    let fault = bits.whole(&mut events).err();
    Read { events, fault }
}

/// The bits of a sheet, most significant first.
struct Bits<'a> {
    sheet: &'a [u8],
    at: usize,
}

impl Bits<'_> {
    fn bit(&mut self) -> Option<u32> {
        let byte = self.sheet.get(self.at / 8)?;
        let bit = byte >> (7 - self.at % 8) & 1;
        self.at += 1;
        Some(bit.into())
    }

    fn take(&mut self, field: Field) -> Result<u32, Fault> {
        let mut value = 0;
        for _ in 0..field.bits() {
            value = value << 1 | self.bit().ok_or(Fault::Cut(field))?;
        }
        Ok(value)
    }

    fn whole(&mut self, events: &mut Vec<Event>) -> Result<(), Fault> {
        for _ in 0..self.take(Field::Count)? {
            events.push(self.event()?);
        }
        self.end()
    }

    fn event(&mut self) -> Result<Event, Fault> {
        Ok(match self.take(Field::Number)? {
            0 => self.frame()?,
            1 => Event::Reset,
            2 => {
                let (kind, on) = self.switch()?;
                Event::Switch(kind, on)
            }
            3 => Event::Step,
            4 => {
                let (kind, on) = self.switch()?;
                Event::Ask(kind, on)
            }
            5 => Event::Commit,
            number => return Err(Fault::Number(number)),
        })
    }

    fn frame(&mut self) -> Result<Event, Fault> {
        let width = self.take(Field::Width)? as usize;
        let height = self.take(Field::Height)? as usize;
        let mut words = Vec::new();
        for _ in 0..width * height {
            words.push(self.take(Field::Word)?);
        }
        Ok(Event::Frame((width, height), words))
    }

    fn switch(&mut self) -> Result<(u8, bool), Fault> {
        let kind = self.take(Field::Kind)? as u8;
        let on = self.take(Field::Position)? == 1;
        Ok((kind, on))
    }

    /// Zero bits to the byte's end, and no byte after it.
    fn end(&mut self) -> Result<(), Fault> {
        let rest = 8 * self.sheet.len() - self.at;
        if rest >= 8 {
            return Err(Fault::LeftOver);
        }
        while let Some(bit) = self.bit() {
            if bit == 1 {
                return Err(Fault::Padding);
            }
        }
        Ok(())
    }
}

impl Event {
    /// Its fields with their values, in the order of the sheet.
    fn fields(&self) -> Vec<(Field, u32)> {
        let number = |number: u32| vec![(Field::Number, number)];
        let switch = |which: u32, kind: u8, on: bool| {
            vec![
                (Field::Number, which),
                (Field::Kind, kind.into()),
                (Field::Position, on.into()),
            ]
        };
        match self {
            Event::Frame((width, height), words) => {
                let mut fields = number(0);
                fields.push((Field::Width, *width as u32));
                fields.push((Field::Height, *height as u32));
                fields.extend(words.iter().map(|&word| (Field::Word, word)));
                fields
            }
            Event::Reset => number(1),
            Event::Switch(kind, on) => switch(2, *kind, *on),
            Event::Step => number(3),
            Event::Ask(kind, on) => switch(4, *kind, *on),
            Event::Commit => number(5),
        }
    }

    /// How many bits it takes.
    pub fn bits(&self) -> usize {
        match self {
            Event::Frame(_, words) => {
                let sides = Field::Width.bits() + Field::Height.bits();
                Field::Number.bits() + sides + words.len() * Field::Word.bits()
            }
            Event::Switch(..) | Event::Ask(..) => {
                Field::Number.bits() + Field::Kind.bits() + Field::Position.bits()
            }
            Event::Reset | Event::Step | Event::Commit => Field::Number.bits(),
        }
    }
}

/// The first bit of each of these events on their sheet, and of the padding behind them.
pub fn places(events: &[Event]) -> Vec<usize> {
    let mut places = vec![Field::Count.bits()];
    let mut at = Field::Count.bits();
    for event in events {
        at += event.bits();
        places.push(at);
    }
    places
}

/// The sheet of these events.
pub fn write(events: &[Event]) -> Vec<u8> {
    assert!(events.len() <= MOST, "too many events for a sheet");
    let mut pen = Pen::default();
    pen.put(Field::Count, events.len() as u32);
    for event in events {
        for (field, value) in event.fields() {
            pen.put(field, value);
        }
    }
    pen.bytes
}

/// Bytes that are written bit by bit: those of the last byte that are not written are zero.
#[derive(Default)]
struct Pen {
    bytes: Vec<u8>,
    at: usize,
}

impl Pen {
    fn put(&mut self, field: Field, value: u32) {
        assert!(value >> field.bits() == 0, "{value} is no {field:?}");
        for place in (0..field.bits()).rev() {
            if self.at % 8 == 0 {
                self.bytes.push(0);
            }
            let bit = (value >> place & 1) as u8;
            self.bytes[self.at / 8] |= bit << (7 - self.at % 8);
            self.at += 1;
        }
    }
}
