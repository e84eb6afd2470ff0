//! From the bytes of a traffic file to values, one record at a time.

use super::*;
use crate::header::Target;
use crate::settings::{AxiAddress, PcieAddress};

/// What is wrong with a file, and where.
#[derive(Clone, Debug, PartialEq, Eq)]
pub struct Fault {
    /// "cut" or "damaged".
    pub what: &'static str,
    /// "header", "event I" or "end".
    pub part: String,
    /// The offset of that part's first byte.
    pub at: usize,
}

/// The two ways in which a record goes wrong.
enum Wrong {
    Cut,
    Damaged,
}

type Try<T> = Result<T, Wrong>;

pub struct Decoder<'a> {
    bytes: &'a [u8],
    at: usize,
    index: u32,
    store: u32,
    /// The repeats of the tick records so far.
    repeats: u32,
}

impl<'a> Decoder<'a> {
    pub fn new(bytes: &'a [u8]) -> Decoder<'a> {
        Decoder {
            bytes,
            at: 0,
            index: 0,
            store: 0,
            repeats: 0,
        }
    }

    pub fn header(&mut self) -> Result<Header, Fault> {
        self.header_fields()
            .map_err(|wrong| fault(wrong, "header".to_string(), 0))
    }

    /// The next event; nothing after a right end record.
    pub fn event(&mut self) -> Result<Option<Event>, Fault> {
        let at = self.at;
        if self.bytes.get(at) == Some(&KIND_END) {
            let end = self.end();
            return end
                .map(|()| None)
                .map_err(|wrong| fault(wrong, "end".to_string(), at));
        }
        let part = format!("event {}", self.index);
        let event = self.record().map_err(|wrong| fault(wrong, part, at))?;
        self.index += 1;
        Ok(Some(event))
    }

    fn take(&mut self, count: usize) -> Try<&'a [u8]> {
        let rest = &self.bytes[self.at..];
        let taken = rest.get(..count).ok_or(Wrong::Cut)?;
        self.at += count;
        Ok(taken)
    }

    fn byte(&mut self) -> Try<u8> {
        Ok(self.take(1)?[0])
    }

    fn word(&mut self) -> Try<u32> {
        let bytes = self.take(4)?;
        Ok(bytes.iter().fold(0, |sum, b| sum << 8 | u32::from(*b)))
    }

    fn long(&mut self) -> Try<u64> {
        Ok(u64::from(self.word()?) << 32 | u64::from(self.word()?))
    }

    fn header_fields(&mut self) -> Try<Header> {
        let magic = self.take(4)?;
        let version = self.word()?;
        let settings = self.settings()?;
        let counter = self.word()?;
        let store = self.word()?;
        let known = (VERSION_ARRAYS..=VERSION_SESSION).contains(&version);
        judge(magic == MAGIC && known && store <= STORE_LIMIT)?;
        self.store = store;
        let making = match version {
            VERSION_ARRAYS => Making::Arrays,
            VERSION_LIST => Making::List(self.window()?),
            _ => Making::ListAndSession(self.window()?, self.word()?),
        };
        Ok(Header {
            making,
            settings,
            counter,
            store,
        })
    }

    fn window(&mut self) -> Try<Window> {
        Ok(Window {
            base: self.long()?,
            size: self.long()?,
            target: self.long()?,
        })
    }

    fn settings(&mut self) -> Try<Settings> {
        let count = self.word()?;
        let mut windows = [Window::default(); 6];
        for window in &mut windows {
            *window = self.window()?;
        }
        Ok(Settings {
            count,
            windows,
            bus_bits: self.word()?,
            read_limit: self.word()?,
            write_limit: self.word()?,
            time_limit: self.word()?,
            requester: self.word()?,
        })
    }

    fn end(&mut self) -> Try<()> {
        self.byte()?;
        let count = self.word()?;
        judge(count == self.index && self.at == self.bytes.len())
    }

    /// All fixed fields are read, then judged, then the variable bytes read.
    fn record(&mut self) -> Try<Event> {
        match self.byte()? {
            KIND_READ => self.read(),
            KIND_WRITE => self.write(),
            KIND_CONFIG => self.config(),
            KIND_COMPLETION => self.completion(),
            KIND_TICK => self.tick(),
            KIND_LINK => self.link(),
            KIND_LOOK => {
                let (store, slot) = self.take_fields()?;
                Ok(Event::Look { store, slot })
            }
            KIND_RELEASE => {
                let (store, slot) = self.take_fields()?;
                Ok(Event::Release { store, slot })
            }
            KIND_REQUEST_WRITER => self.request_writer(),
            KIND_REQUEST_READER => Ok(Event::RequestReader {
                bytes: self.data()?,
            }),
            KIND_COMPLETION_WRITER => self.completion_writer(),
            KIND_COMPLETION_READER => Ok(Event::CompletionReader {
                bytes: self.data()?,
            }),
            KIND_MESSAGE => Ok(Event::Message {
                bytes: self.data()?,
            }),
            _ => Err(Wrong::Damaged),
        }
    }

    /// A length and that many bytes.
    fn data(&mut self) -> Try<Vec<u8>> {
        let length = self.word()?;
        self.data_of(length)
    }

    fn data_of(&mut self, length: u32) -> Try<Vec<u8>> {
        judge(length <= DATA_LIMIT)?;
        Ok(self.take(length as usize)?.to_vec())
    }

    fn burst(&mut self) -> Try<Burst> {
        Ok(Burst {
            start: AxiAddress(self.long()?),
            size: self.word()?,
            beats: self.word()?,
            kind: self.word()?,
        })
    }

    fn read(&mut self) -> Try<Event> {
        let area = self.word()?;
        let burst = self.burst()?;
        judge(area <= AREA_LIMIT)?;
        Ok(Event::Read { burst, area })
    }

    fn write(&mut self) -> Try<Event> {
        let area = self.word()?;
        let burst = self.burst()?;
        let length = self.word()?;
        judge(area <= AREA_LIMIT)?;
        let data = self.data_of(length)?;
        Ok(Event::Write { burst, area, data })
    }

    fn config(&mut self) -> Try<Event> {
        let area = self.word()?;
        let offset = self.long()?;
        let write = self.byte()?;
        let data = self.word()?;
        let strobes = self.word()?;
        judge(area <= AREA_LIMIT && write <= 1)?;
        let access = Access {
            offset,
            write: write == 1,
            data,
            strobes,
        };
        Ok(Event::Config { access, area })
    }

    fn completion(&mut self) -> Try<Event> {
        let store = self.word()?;
        let length = self.word()?;
        judge(store <= self.store)?;
        let bytes = self.data_of(length)?;
        Ok(Event::Completion { store, bytes })
    }

    fn tick(&mut self) -> Try<Event> {
        let store = self.word()?;
        let repeat = self.word()?;
        judge(store <= self.store && (1..=REPEAT_LIMIT).contains(&repeat))?;
        // Both are bounded now, so the sum does not overflow.
        let repeats = self.repeats + repeat;
        judge(repeats <= REPEATS_LIMIT)?;
        self.repeats = repeats;
        Ok(Event::Tick { store, repeat })
    }

    fn link(&mut self) -> Try<Event> {
        let store = self.word()?;
        let up = self.byte()?;
        judge(store <= self.store && up <= 1)?;
        Ok(Event::Link { store, up: up == 1 })
    }

    fn take_fields(&mut self) -> Try<(u32, u32)> {
        let store = self.word()?;
        let slot = self.word()?;
        judge(store <= self.store)?;
        Ok((store, slot))
    }

    fn request_writer(&mut self) -> Try<Event> {
        let area = self.word()?;
        let write = self.byte()?;
        let target = self.byte()?;
        let address = self.long()?;
        let mut fields = [0; 10];
        for field in &mut fields {
            *field = self.word()?;
        }
        judge(area <= AREA_LIMIT && write <= 1 && target <= 2)?;
        let [bus, device, function, extended, register, length, requester, tag, last, first] =
            fields;
        let target = match target {
            0 => Target::Memory(PcieAddress(address)),
            kind => Target::Config {
                type1: kind == 2,
                bus,
                device,
                function,
                extended,
                register,
            },
        };
        let value = Request {
            write: write == 1,
            target,
            length,
            requester,
            tag,
            last,
            first,
        };
        Ok(Event::RequestWriter { area, value })
    }

    fn completion_writer(&mut self) -> Try<Event> {
        let area = self.word()?;
        let data = self.byte()?;
        let poisoned = self.byte()?;
        let value = Completion {
            data: data == 1,
            poisoned: poisoned == 1,
            length: self.word()?,
            completer: self.word()?,
            status: self.word()?,
            count: self.word()?,
            requester: self.word()?,
            tag: self.word()?,
            lower: self.word()?,
        };
        judge(area <= AREA_LIMIT && data <= 1 && poisoned <= 1)?;
        Ok(Event::CompletionWriter { area, value })
    }
}

fn judge(right: bool) -> Try<()> {
    match right {
        true => Ok(()),
        false => Err(Wrong::Damaged),
    }
}

fn fault(wrong: Wrong, part: String, at: usize) -> Fault {
    let what = match wrong {
        Wrong::Cut => "cut",
        Wrong::Damaged => "damaged",
    };
    Fault { what, part, at }
}
