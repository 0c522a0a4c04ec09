//! The lines of program `sheet`: of an event of a sheet that is printed, in words; of one that is played, as document 01's program `station`
//! prints it, with A for an ask and C for a commit.

use crate::bridge::Answer;
use crate::programs::card;
use crate::sheets::paper::Event;

/// An event in words.
pub fn named(event: &Event) -> String {
    match event {
        Event::Frame((width, height), _) => format!("frame, {width} by {height}"),
        Event::Reset => "reset".to_string(),
        Event::Switch(kind, on) => format!("switch: {}", switched(*kind, *on)),
        Event::Step => "preset step".to_string(),
        Event::Ask(kind, on) => format!("ask: {}", switched(*kind, *on)),
        Event::Commit => "commit".to_string(),
    }
}

/// A pass by its name, a kind that none has by its number.
fn switched(kind: u8, on: bool) -> String {
    let pass = match kind {
        1..=10 => card::names(kind.into()).0.to_string(),
        _ => format!("kind {kind}"),
    };
    format!("{pass} {}", card::switch(on))
}

/// What is said of an event that was answered so, with the framebuffer after it.
pub fn said(event: &Event, answer: Answer, framebuffer: &[u32]) -> String {
    let number = match answer {
        Ok(number) => number,
        Err(number) => return format!("E {number}\n"),
    };
    match event {
        Event::Frame((width, height), _) => {
            let pixels = framebuffer[..width * height].iter();
            let pixels: String = pixels.map(|word| format!(" {word:06X}")).collect();
            format!("F{pixels}\n")
        }
        Event::Reset => "R\n".to_string(),
        Event::Switch(..) => "S\n".to_string(),
        // It answers the new preset.
        Event::Step => format!("L {number}\n"),
        Event::Ask(..) => "A\n".to_string(),
        Event::Commit => "C\n".to_string(),
    }
}
