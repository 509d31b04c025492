//! The calls that play, and those of the texts around a play.

use super::tried::{Fault, Tried, again};
use std::alloc::Global;
use tds_packet::Direction;
use tds_play::{
    Carrier, CarrierError, Event, LineFault, MemoryCarrier, PlayRefusal, Report, ScheduleFault,
    Setup, WordFault, play, play_with, read_schedule, read_words, render, word_bytes,
};
use tds_session::ScriptEngine;

/// A call that plays, or one of the texts around a play.
#[derive(Clone, Copy)]
pub enum PlayCall {
    Play,
    PlayWith,
    Render,
    ReadSchedule,
    ReadWord,
    ReadLine,
    Carry,
}

/// Makes it.
pub fn call(alloc: Global, call: PlayCall, tried: &mut Tried) -> Result<(), Fault> {
    match call {
        PlayCall::Play => play_a_schedule(alloc, tried),
        PlayCall::PlayWith => play_with_an_engine(alloc, tried),
        PlayCall::Render => render_a_report(alloc, tried),
        PlayCall::ReadSchedule => read_a_schedule(alloc, tried),
        PlayCall::ReadWord => read_a_word(alloc, tried),
        PlayCall::ReadLine => read_a_line(alloc, tried),
        PlayCall::Carry => memory_carrier(alloc, tried),
    }
}

/// A lease asks for a value, and is answered.
const SCHEDULE: &[u8] = br#"{"version":1,"packet_size":512,"max":1,"events":[
["lease"],["batch",1,"get x"],["send",1],["to_server",1,40],["work",1],["work",1],["to_client",1,99]]}"#;

fn schedule(alloc: Global) -> Result<(Setup, Vec<Event>), Fault> {
    match read_schedule(alloc, SCHEDULE) {
        Ok(read) => Ok(read),
        Err(ScheduleFault::Memory) => Err(Fault::Memory),
        Err(_) => Err(Fault::Wrong),
    }
}

/// The report's text.
fn say_report(alloc: Global, report: &Report, tried: &mut Tried) -> Result<(), Fault> {
    let mut text = Vec::new(alloc);
    match render(alloc, report, &mut text) {
        Ok(()) => tried.say_bytes(text.as_slice()),
        Err(_) => Err(Fault::Memory),
    }
}

/// Plays it over this carrier.
fn report_over(alloc: Global, carrier: &mut MemoryCarrier) -> Result<Report, Fault> {
    let (setup, events) = schedule(alloc)?;
    match play(alloc, &setup, events.as_slice(), carrier) {
        Ok(report) => Ok(report),
        Err(PlayRefusal::Memory) => Err(Fault::Refused),
        Err(_) => Err(Fault::Wrong),
    }
}

/// What `play` answered; again, with a new carrier, where memory was wanted.
fn play_a_schedule(alloc: Global, tried: &mut Tried) -> Result<(), Fault> {
    let report = report_over(alloc, &mut MemoryCarrier::new(alloc))?;
    say_report(alloc, &report, tried)
}

/// Plays it with an engine, over this carrier.
fn report_with(alloc: Global, carrier: &mut MemoryCarrier) -> Result<Report, Fault> {
    let (setup, events) = schedule(alloc)?;
    match play_with(alloc, &setup, events.as_slice(), ScriptEngine, carrier) {
        Ok(report) => Ok(report),
        Err(PlayRefusal::Memory) => Err(Fault::Refused),
        Err(_) => Err(Fault::Wrong),
    }
}

/// The same of `play_with`, over the carrier that was used.
fn play_with_an_engine(alloc: Global, tried: &mut Tried) -> Result<(), Fault> {
    let mut carrier = MemoryCarrier::new(alloc);
    let report = report_with_twice(alloc, &mut carrier, tried)?;
    say_report(alloc, &report, tried)
}

fn report_with_twice(
    alloc: Global,
    carrier: &mut MemoryCarrier,
    tried: &mut Tried,
) -> Result<Report, Fault> {
    match report_with(alloc, carrier) {
        Err(Fault::Refused) => {
            tried.refuse(true);
            match report_with(alloc, carrier) {
                Ok(report) => Ok(report),
                Err(_) => Err(Fault::Wrong),
            }
        }
        report => report,
    }
}

/// A report is rendered; again, with a new writer, where memory was wanted.
fn render_a_report(alloc: Global, tried: &mut Tried) -> Result<(), Fault> {
    let Ok(report) = report_over(alloc, &mut MemoryCarrier::new(alloc)) else {
        return Err(Fault::Memory);
    };
    let mut text = Vec::new(alloc);
    if render(alloc, &report, &mut text).is_err() {
        let mut whole = Vec::new(alloc);
        again(render(alloc, &report, &mut whole))?;
        tried.refuse(whole.as_slice().starts_with(text.as_slice()));
        text = whole;
    }
    tried.say_bytes(text.as_slice())
}

fn read_a_schedule(alloc: Global, tried: &mut Tried) -> Result<(), Fault> {
    match read_schedule(alloc, SCHEDULE) {
        Ok((setup, events)) => {
            tried.count(u64::from(setup.max))?;
            tried.count(events.len() as u64)
        }
        Err(ScheduleFault::Memory) => Err(Fault::Refused),
        Err(_) => Err(Fault::Wrong),
    }
}

fn read_a_word(alloc: Global, tried: &mut Tried) -> Result<(), Fault> {
    match word_bytes(alloc, "0601000800000100") {
        Ok(bytes) => tried.get(bytes.as_slice()),
        Err(WordFault::Memory) => Err(Fault::Refused),
        Err(_) => Err(Fault::Wrong),
    }
}

fn read_a_line(alloc: Global, tried: &mut Tried) -> Result<(), Fault> {
    let mut words = Vec::new(alloc);
    for word in ["play", "a_file"] {
        let mut text = String::new(alloc);
        text.push_str(word)?;
        words.push(text)?;
    }
    match read_words(alloc, words.as_slice()) {
        Ok(tds_play::Command::Play(name)) => tried.say(name.as_str()),
        Err(LineFault::Memory) => Err(Fault::Refused),
        _ => Err(Fault::Wrong),
    }
}

/// A connection is opened and handed bytes; plays ask for them. Where memory is refused nothing is known of
/// the carrier, so that it all begins again with a new one.
fn hand_over(alloc: Global) -> Result<(), CarrierError> {
    let mut carrier = MemoryCarrier::new(alloc);
    carrier.open(1)?;
    carrier.send(1, Direction::ToServer, &[1, 2, 3])
}

fn memory_carrier(alloc: Global, tried: &mut Tried) -> Result<(), Fault> {
    match hand_over(alloc) {
        Ok(()) => tried.say("handed over"),
        Err(CarrierError::Memory) => {
            tried.refuse(true);
            match hand_over(alloc) {
                Ok(()) => tried.say("handed over"),
                _ => Err(Fault::Wrong),
            }
        }
        _ => Err(Fault::Wrong),
    }
}
