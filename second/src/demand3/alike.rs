//! Two histories that end alike are answered alike.

use super::lives::Lives;
use super::{Counterexample, Figures};
use crate::answer::Answer;
use crate::bridge::{Bridge, CONFIG_SLOT, OVERFLOW, QUEUE_DEPTH};
use crate::bridge::{WORD_BUSES, WORD_DECODE, WORD_DISABLE, WORD_MASK, WORD_STATUS};
use crate::generate::messages::{sound, CODES};
use crate::generate::{lawful_settings, Generator, Random};
use crate::settings::Settings;
use crate::traffic::{Event, Header, Machine, Making, Outcome};

/// How two histories end: what the registers shall hold.
struct End {
    words: [u32; 3],
    /// What is queued, more than the queue holds now and then.
    messages: Vec<Vec<u8>>,
    /// Whether the flag is cleared after that.
    clear_flag: bool,
}

impl End {
    fn any(random: &mut Random) -> End {
        let words = [random.word(), random.word() & 0x100, random.word()];
        let count = match random.below(6) {
            0 => 0,
            1 => random.between(QUEUE_DEPTH as u32 - 1, QUEUE_DEPTH as u32 + 2),
            _ => random.between(1, 6),
        };
        let message = |_| {
            let code = random.pick(&CODES);
            sound(code, random)
        };
        End {
            words,
            messages: (0..count).map(message).collect(),
            clear_flag: random.chance(50),
        }
    }
}

/// One trial: two bridges with any past, brought to equal registers, a link that
/// is down and free slots; then the same events on both.
pub fn alike(seed: u64, events: usize) -> Result<Figures, Counterexample> {
    let mut random = Random::new(seed ^ 0xA11CE);
    let settings = lawful_settings(seed, &mut random);
    let mut one = history(&settings, &mut random);
    let mut other = history(&settings, &mut random);
    let end = End::any(&mut random);
    end_history(&mut one, &end);
    end_history(&mut other, &end);
    if words_are_lost(&one.machine) || words_are_lost(&other.machine) {
        return Ok(Figures::default());
    }
    let start = one.events.len();
    let mut figures = Figures::default();
    let result = equal_start(&one.machine, &other.machine)
        .and_then(|()| later(&mut one, &mut other, events, &mut figures));
    let later_events = one.events[start..].to_vec();
    result.map(|()| figures).map_err(|claim| Counterexample {
        claim,
        setting: format!("{settings:x?}"),
        events: later_events,
    })
}

fn history(settings: &Settings, random: &mut Random) -> Generator {
    let header = Header {
        making: Making::Arrays,
        settings: settings.clone(),
        counter: random.word(),
        store: random.between(32_768, 40_960),
    };
    let mut machine = Machine::new(&header);
    machine.store = random.bytes(machine.store.len());
    // Each history has its own, since no register shows it.
    machine.bridge.set_session(random.word());
    let mut generator = Generator::new(machine, Random::new(random.long()));
    generator.opening();
    let length = random.between(0, 300) as usize;
    while generator.events.len() < length {
        generator.step();
    }
    generator.full = true;
    generator
}

/// The link goes down, every slot is taken, the queue is emptied and filled
/// anew, the registers get their values.
fn end_history(generator: &mut Generator, end: &End) {
    generator.link(true);
    generator.link(false);
    generator.release_all();
    // A removal may be refused, so there are more than entries.
    generator.remove_all(4 * QUEUE_DEPTH);
    generator.local_write(WORD_DECODE, u32::MAX);
    generator.local_write(WORD_STATUS, OVERFLOW);
    generator.link(true);
    for bytes in &end.messages {
        let bytes = bytes.clone();
        generator.push(Event::Message { bytes });
    }
    generator.link(false);
    if end.clear_flag {
        generator.local_write(WORD_STATUS, u32::MAX);
    }
    generator.local_write(WORD_DISABLE, end.words[1]);
    generator.local_write(WORD_MASK, end.words[2]);
    generator.local_write(WORD_DECODE, u32::MAX);
    let most = (1 << generator.machine.bridge.settings().bus_bits) - 1;
    generator.local_write(WORD_BUSES, end.words[0] & (0x00FF_FF00 | most));
}

/// "equal registers": the words and the whole list of queued messages.
fn equal_registers(one: &Bridge, other: &Bridge) -> bool {
    one.registers() == other.registers() && one.errors().entries() == other.errors().entries()
}

/// A primary bus of 2^n or more: no offset reaches the local words, so the
/// registers cannot be made equal.
fn words_are_lost(machine: &Machine) -> bool {
    let primary = machine.bridge.registers()[0] & 0xFF;
    primary >> machine.bridge.settings().bus_bits != 0
}

fn equal_start(one: &Machine, other: &Machine) -> Result<(), String> {
    let free = |m: &Machine| (0..=CONFIG_SLOT).all(|s| m.bridge.look(s, &m.store).0 == 14);
    let down = !one.bridge.link_is_up() && !other.bridge.link_is_up();
    let equal = equal_registers(&one.bridge, &other.bridge);
    match down && equal && free(one) && free(other) {
        true => Ok(()),
        false => Err("the trial itself: the histories do not end alike".to_string()),
    }
}

/// The generator makes events on the first bridge; the second plays them too.
fn later(
    one: &mut Generator,
    other: &mut Generator,
    events: usize,
    figures: &mut Figures,
) -> Result<(), String> {
    let from = one.events.len();
    let mut shadow = one.machine.clone();
    let queued = shadow.bridge.errors().entries().len() as u64;
    figures.alike_pairs += 1;
    figures.alike_pairs_queued += u64::from(queued > 1);
    let sessions = Sessions::new(&shadow.bridge, &other.machine.bridge);
    figures.alike_pairs_other += u64::from(sessions.apart != 0);
    let mut lives = [&shadow, &other.machine].map(|m| Lives::new(m.bridge.session()));
    one.opening();
    while one.events.len() < from + events {
        one.step();
    }
    for event in &one.events[from..] {
        let before = shadow.bridge.errors().entries().len();
        let left = shadow.play(&lent(event, &shadow));
        let right = other.machine.play(&lent(event, &other.machine));
        compare(event, (&left, &shadow), (&right, &other.machine))?;
        lives[0].note(event, &left)?;
        lives[1].note(event, &right)?;
        sessions.compare(event, &left, &right, figures)?;
        figures.alike_events += 1;
        let read = matches!(event, Event::Read { .. }) && left.number() == 0;
        figures.alike_reads += u64::from(read);
        let after = shadow.bridge.errors().entries().len();
        figures.alike_removed += before.saturating_sub(after) as u64;
    }
    Ok(())
}

/// "each bridge keeps its one store": the event with the machine's own.
fn lent(event: &Event, machine: &Machine) -> Event {
    let mut event = event.clone();
    match &mut event {
        Event::Completion { store, .. }
        | Event::Tick { store, .. }
        | Event::Link { store, .. }
        | Event::Look { store, .. }
        | Event::Release { store, .. } => *store = machine.store.len() as u32,
        _ => {}
    }
    event
}

/// What is true of the session numbers beyond demand 3: those of taken answers
/// are always as far apart, mod 2^32, as the counters were at the start.
struct Sessions {
    apart: u32,
}

impl Sessions {
    fn new(one: &Bridge, other: &Bridge) -> Sessions {
        Sessions {
            apart: one.session().wrapping_sub(other.session()),
        }
    }

    fn compare(
        &self,
        event: &Event,
        left: &Outcome,
        right: &Outcome,
        figures: &mut Figures,
    ) -> Result<(), String> {
        let (Event::Release { .. }, Outcome::Call(one), Outcome::Call(other)) =
            (event, left, right)
        else {
            return Ok(());
        };
        if one.number != 0 {
            return Ok(());
        }
        figures.alike_taken += 1;
        figures.alike_taken_other += u64::from(one.session != other.session);
        let apart = one.session.wrapping_sub(other.session);
        match apart == self.apart {
            true => Ok(()),
            false => Err(format!("sessions apart by {apart}, not {}", self.apart)),
        }
    }
}

/// 02: "compares answers apart from their session numbers".
fn without_session(outcome: &Outcome) -> Outcome {
    match outcome {
        Outcome::Call(answer) => Outcome::Call(Answer {
            session: 0,
            ..*answer
        }),
        other => other.clone(),
    }
}

/// "the same number, response, slot, bytes sent, data word, look's bytes and any
/// further answer, and equal registers after"
fn compare(
    event: &Event,
    left: (&Outcome, &Machine),
    right: (&Outcome, &Machine),
) -> Result<(), String> {
    let sent = |outcome: &Outcome, machine: &Machine| match outcome {
        Outcome::Call(answer) => machine.area[..answer.sent as usize].to_vec(),
        _ => Vec::new(),
    };
    let same = without_session(left.0) == without_session(right.0)
        && sent(left.0, left.1) == sent(right.0, right.1)
        && left.1.bridge.line() == right.1.bridge.line()
        && equal_registers(&left.1.bridge, &right.1.bridge);
    match same {
        true => Ok(()),
        false => Err(format!(
            "alike: {event:x?} gave {:x?} and {:x?}",
            left.0, right.0
        )),
    }
}
