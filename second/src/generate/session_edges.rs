//! Files at the edges of the format's third version (02, request A2).

use super::{bursts, traffic, Random};
use crate::bridge::{Access, AREA_BYTES, CONFIG_SLOT, READ_SLOTS, WORD_BUSES, WORD_INFO};
use crate::settings::{Settings, Window};
use crate::traffic::{Event, Header, Making, Traffic};
use crate::traffic::{HEADER_BYTES, RECORD_BYTES, SESSION_BYTES, VERSION_SESSION};

/// The words of one function's configuration space.
const WORDS: u32 = 1024;

/// A header that is cut around its first session value, or has no known version;
/// nine lives, each with an answer that is taken after all of them; every local
/// word, of which none shows the counter.
pub fn session_edges() -> Vec<(&'static str, Vec<u8>)> {
    let list = HEADER_BYTES + RECORD_BYTES;
    let whole = list + SESSION_BYTES;
    let right = nine_lives(u32::MAX - 4);
    let after = VERSION_SESSION + 1;
    let high = VERSION_SESSION | 1 << 16;
    vec![
        ("edge-session-no-list", right[..HEADER_BYTES].to_vec()),
        ("edge-session-none", right[..list].to_vec()),
        ("edge-session-cut", right[..whole - 1].to_vec()),
        ("edge-session-alone", right[..whole].to_vec()),
        ("edge-version-0", with_version(&right, 0)),
        ("edge-version-4", with_version(&right, after)),
        ("edge-version-of-17-bits", with_version(&right, high)),
        // Too few bytes are a cut before they are damage.
        (
            "edge-version-4-cut",
            with_version(&right[..HEADER_BYTES - 1], after),
        ),
        ("edge-all-words", all_words()),
        ("edge-nine-lives", right),
        ("edge-nine-lives-from-0", nine_lives(0)),
        ("edge-nine-lives-from-bit-31", nine_lives(0x7FFF_FFFC)),
    ]
}

fn with_version(bytes: &[u8], version: u32) -> Vec<u8> {
    let mut bytes = bytes.to_vec();
    bytes[4..8].copy_from_slice(&version.to_be_bytes());
    bytes
}

/// Every local word is read, written with ones and read again.
fn all_words() -> Vec<u8> {
    let store = traffic(0, 0).header.store;
    let mut events = vec![Event::Link { store, up: true }];
    for write in [false, true, false] {
        // The bus numbers stay, so that the words stay in reach.
        let words = (0..WORDS).map(|word| 4 * word);
        for word in words.filter(|word| !write || *word != WORD_BUSES) {
            events.push(local(word, write));
            events.push(Event::Release {
                store,
                slot: CONFIG_SLOT,
            });
        }
    }
    file(0x5A5A_A5A5, events)
}

/// On the primary bus of a fresh bridge, which is 0.
fn local(word: u32, write: bool) -> Event {
    let access = Access {
        offset: u64::from(word),
        write,
        data: u32::MAX,
        strobes: 15,
    };
    let area = AREA_BYTES as u32;
    Event::Config { access, area }
}

/// The example's settings, with this first session value.
fn file(first: u32, events: Vec<Event>) -> Vec<u8> {
    let header = Header {
        making: Making::ListAndSession(Window::default(), first),
        settings: Settings::example(),
        counter: 0,
        store: traffic(0, 0).header.store,
    };
    Traffic { header, events }.encode()
}

/// In each of eight lives a read, which the drop ends; in the ninth a local
/// access. All are taken with the link down, then all slots once more.
fn nine_lives(first: u32) -> Vec<u8> {
    let store = traffic(0, 0).header.store;
    let area = AREA_BYTES as u32;
    let link = |up: bool| Event::Link { store, up };
    let burst = bursts::one_word(&Settings::example(), &mut Random::new(0));
    let mut events = Vec::new();
    for _ in 0..READ_SLOTS {
        events.extend([link(true), Event::Read { burst, area }, link(false)]);
    }
    events.extend([link(true), local(WORD_INFO, false), link(false)]);
    for _ in 0..2 {
        events.extend((0..=CONFIG_SLOT).map(|slot| Event::Release { store, slot }));
    }
    file(first, events)
}
